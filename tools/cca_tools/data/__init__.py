"""Data in and out: bids from tables of others, and prices as tables."""
