"""The copy of a design that yosys gets, for texts that no design has."""

from tlbridge.verify.plain import plain


def test_a_property_without_an_end() -> None:
    """The rest of the text belongs to it: yosys then reports the module that does not end."""
    for word in ("property", "sequence"):
        assert plain(f"module m;\n{word} p;\n a;\n").split() == ["module", "m;"]
        assert plain(f"module m;\n{word} p; a; end{word} : p\nwire x;").split() == ["module", "m;", "wire", "x;"]
