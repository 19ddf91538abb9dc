"""Bidders with values: how they bid, whole auctions of them, and studies of many auctions."""
