"""The budget of the proofs."""
from budget import totals_of


def test_chains_do_not_depend_on_the_order_of_the_rows() -> None:
    known = {"program": ["middle", "low"], "middle": ["low"], "low": [], "aside": []}
    assert totals_of({"program": 1, "middle": 20, "low": 300, "aside": 4000}, known) == {"in_all": 4321, "longest_chain": 4000}
    assert totals_of({"program": 1, "middle": 20, "low": 300}, known) == {"in_all": 321, "longest_chain": 321}
