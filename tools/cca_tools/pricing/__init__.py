"""Prices of a book with any number of winners within the other limits, and their certificate.

`making.make_certificate` finds the prices, and writes and tests their certificate; `certificates.certificate_of` only
finds them. What is proved of the result is what a checker proves of each certificate that passes: that a certificate is
found is not proved.
"""
