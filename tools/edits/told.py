"""What `rt ci` said of the must-fail edits, as its log has it:

    rt: must-fail CRATE/NAME.edit: refused, as it must be: WHERE: MESSAGE

It tried each, and WHERE is the place at which the crate's check failed first; the message is cut off. An edit that failed first at its fact, for
what the fact says, need not be tried again. Of one that failed elsewhere first, or whose message is cut too short, the log does not tell."""
import re

import must_fail
import said

REFUSED = re.compile(r"^rt: must-fail (?P<crate>\w+)/(?P<name>\S+)\.edit: refused, as it must be: (?P<failure>.*)$", re.M)


def at_their_fact(edits, log):
    """Those of the edits that failed first at their fact, as a log says."""
    told = {(match["crate"], match["name"]): match["failure"] for match in REFUSED.finditer(log)}
    return [edit for edit in edits if is_at(edit.says("fact"), told.get((edit.crate, edit.name), ""), f"crates/{edit.crate}")]


def is_at(fact, failure, crate):
    """Whether what was said of the files of a crate's folder is of a fact."""
    found = said.failures(failure, crate)
    return bool(found) and found[0].place() == fact and must_fail.shows(found[0])
