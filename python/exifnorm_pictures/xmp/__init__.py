"""XMP compared by its RDF statements. This is tested, but not proved.

Two packets mean the same if they make the same statements about the picture. These make no statement and are ignored:

- the packet's wrapper and padding, white space between elements, comments, prefixes, the order of properties, and whether a property
  is written as an attribute or as an element;
- `x:xmpmeta` with its attribute `x:xmptk`, which is the program that wrote the packet;
- `rdf:about`: the subject is the picture that the packet is in. A packet about several subjects is unreadable;
- the order of an `rdf:Bag`, which has none. `rdf:Seq` and `rdf:Alt` keep theirs.

Dates and identifiers that programs renew at each saving are statements like all others. Extended XMP belongs to the packet with its
digest. A packet that is not well-formed, that has a document type declaration, that is too long or nested too deep is unreadable: no
entity is expanded and nothing is fetched.

`reading` reads packets by the library, and `reader` those that it calls rare.
"""

from .reading import Extensions, statements
from .tree import CAUSES, Statements, Unreadable, digest_of_statements

__all__ = ["CAUSES", "Extensions", "Statements", "Unreadable", "digest_of_statements", "statements"]
