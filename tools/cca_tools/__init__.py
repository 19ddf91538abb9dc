"""The second program of `cca`: auctions, books and certificates in Python, written only from the pages of `docs/`.

What a caller needs is here: the readers, the auction, the tests of a certificate, the kinds of amounts, and the stop
that each of them may raise.
"""

import cca_tools.interrupts  # noqa: F401  (first, so that an import that fails after it ends with 70)
from cca_tools.data.bids import make_book, read_bids, read_frame
from cca_tools.data.prices import Price, Prices, price
from cca_tools.data.raw import Sold
from cca_tools.rules.auction import Auction, Reply, replay
from cca_tools.rules.award import Award, read_award
from cca_tools.rules.book import Book, book_text, read_book
from cca_tools.rules.certificate import Certificate, read_certificate
from cca_tools.rules.certificate_tests import first_fault
from cca_tools.rules.log import Line, read_log
from cca_tools.rules.stops import Stop, load
from cca_tools.rules.ties import tie_sentences, ties_of
from cca_tools.rules.types import Gross, GrossPrice, Net, NetPrice, ScaledNet
from cca_tools.rules.weights import read_weights
from cca_tools.version import version

__version__ = version()

__all__ = [
    "Auction",
    "Award",
    "Book",
    "Certificate",
    "Gross",
    "GrossPrice",
    "Line",
    "Net",
    "NetPrice",
    "Price",
    "Prices",
    "Reply",
    "ScaledNet",
    "Sold",
    "Stop",
    "__version__",
    "book_text",
    "first_fault",
    "load",
    "make_book",
    "price",
    "read_award",
    "read_bids",
    "read_book",
    "read_certificate",
    "read_frame",
    "read_log",
    "read_weights",
    "replay",
    "tie_sentences",
    "ties_of",
]
