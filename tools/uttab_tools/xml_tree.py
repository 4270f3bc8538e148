"""Reads XML files of others. No entity is read and nothing is fetched."""

import re

from lxml import etree

from uttab_tools.program import FileFault
from uttab_tools.reading import reading_bytes


def read_tree(file: str, *, bare: bool = False) -> etree._ElementTree:
    """The tree of an XML file, `bare` of comments and instructions or with them."""
    parser = etree.XMLParser(resolve_entities=False, no_network=True, load_dtd=False, remove_comments=bare, remove_pis=bare,
                             collect_ids=False)
    try:
        with reading_bytes(file) as source:
            tree = etree.parse(source, parser)
    except etree.XMLSyntaxError as error:
        words = re.sub(r", line \d+, column \d+( \(.*\))?$", "", " ".join((error.msg or "no XML text").split()))
        raise FileFault(f"{file}: line {error.lineno}: can't be read as XML: {words}") from None
    if tree.docinfo.internalDTD is not None and any(True for _ in tree.docinfo.internalDTD.iterentities()):
        raise FileFault(f"{file}: declares entities, which aren't read")
    return tree
