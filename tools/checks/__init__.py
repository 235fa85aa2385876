"""What is checked beside the proofs: documents, names, pages, the real program, and the tools themselves.

`python3 tools NAME` calls one from the top of the checkout; tools/README.md says what each is for.
"""
import os

# The top of the checkout.
ROOT = os.path.dirname(os.path.dirname(os.path.dirname(os.path.abspath(__file__))))
