"""All of RDF/XML by rdflib, with which the readers of XMP are compared. Its text has no document type, so nothing is fetched."""

from xml.etree import ElementTree

from exifnorm_pictures.xmp.tree import Unreadable
from exifnorm_pictures.xmp.tree import PICTURE, Literal, Node, Statement, Uri


def statements(root):
    """The statements of an rdf:RDF element. Raises `Unreadable`."""
    import rdflib  # not at the top: tests that need it are skipped where it isn't installed

    rdflib.NORMALIZE_LITERALS = False
    graph = rdflib.Graph()
    try:
        graph.parse(data=ElementTree.tostring(root, encoding="utf-8"), format="xml", publicID=PICTURE)
    except Exception:  # rdflib raises its own kinds, those of xml.sax, and others
        raise Unreadable("RareForm") from None
    return Tree(graph).statements()


class Tree:
    """A graph read as a tree from the picture on."""

    def __init__(self, graph):
        import rdflib

        self.rdflib, self.by_subject = rdflib, {}
        for subject, predicate, value in graph:
            self.by_subject.setdefault(subject, []).append((predicate, value))
        inner = [it for it in graph.objects() if isinstance(it, rdflib.BNode)]
        if len(set(inner)) < len(inner):
            raise Unreadable("RareForm")  # a node with several names
        self.tops = [it for it in self.by_subject if it not in set(inner)]

    def statements(self):
        """The statements about the picture, which may have no name, an empty one, or one name everywhere."""
        names = {str(it).rstrip("/#") for it in self.tops if isinstance(it, self.rdflib.URIRef)}
        if len(names - {PICTURE, ""}) > 1:
            raise Unreadable("SeveralSubjects")
        return tuple(self.statement(*it) for top in self.tops for it in self.by_subject[top])

    def statement(self, predicate, value):
        return Statement(str(predicate), self.value(value))

    def value(self, value):
        if isinstance(value, self.rdflib.Literal):
            return Literal(str(value), (value.language or "").lower(), str(value.datatype or ""))
        if isinstance(value, self.rdflib.URIRef):
            return Uri(str(value))
        return Node(tuple(self.statement(*it) for it in self.by_subject.get(value, ())))
