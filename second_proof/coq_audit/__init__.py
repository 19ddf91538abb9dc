"""An audit by Coq's kernel: the bytes of the files as terms, and the theorem of Audit.v on them."""
