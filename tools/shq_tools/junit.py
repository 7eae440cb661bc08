"""What came of checks, in the form of JUnit, which build servers read."""
import re
from xml.etree import ElementTree

# What cannot stand in XML at all.
UNWRITABLE = re.compile("[^\t\n\r\u0020-\ud7ff\ue000-\ufffd\U00010000-\U0010ffff]")


def cleaned(text):
    return UNWRITABLE.sub("?", text)


def case_of(one, suite):
    """The element of what came of one check."""
    name = cleaned(f"line {one.check.number}: {one.check.line}")
    case = ElementTree.SubElement(suite, "testcase", name=name, classname=suite.get("name"), time=f"{one.seconds:.3f}")
    if not one.is_ok:
        kind = "failure" if one.is_failure else "error"
        inner = ElementTree.SubElement(case, kind, message=cleaned(one.what))
        inner.text = cleaned("\n".join(one.details))


def junit_of(name, results):
    """The text of a report on checks."""
    counts = {
        "tests": len(results),
        "failures": sum(it.is_failure for it in results),
        "errors": sum(not it.is_ok and not it.is_failure for it in results),
        "time": f"{sum(it.seconds for it in results):.3f}",
    }
    suites = ElementTree.Element("testsuites")
    suite = ElementTree.SubElement(suites, "testsuite", name=cleaned(name), **{it: str(counts[it]) for it in counts})
    for one in results:
        case_of(one, suite)
    ElementTree.indent(suites)
    return ElementTree.tostring(suites, encoding="unicode", xml_declaration=True) + "\n"
