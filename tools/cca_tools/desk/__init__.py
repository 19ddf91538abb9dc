"""The auctioneer's desk: pages in a browser, on this machine only, that preview lines, write them and show the
replies."""
