"""The answers of `golden check` as JUnit XML."""
import os
from xml.sax.saxutils import escape, quoteattr


def clean(text):
    """Text without what XML can't have."""
    return "".join(letter if letter >= " " or letter in "\n\t" else "?" for letter in text)


def case(answer):
    """One scene as a test."""
    folder, name = os.path.split(answer.path)
    head = f"  <testcase classname={quoteattr(clean(folder or '.'))} name={quoteattr(clean(name))} time=\"{answer.seconds:.3f}\""
    if answer.wrong is None:
        return head + "/>\n"
    kind, text = "error" if answer.broken else "failure", clean(answer.wrong)
    return f"{head}>\n    <{kind} message={quoteattr(text.splitlines()[0])}>{escape(text)}</{kind}>\n  </testcase>\n"


def report(answers):
    """The whole text."""
    failed, broken = (sum(answer.wrong is not None and answer.broken is kind for answer in answers) for kind in (False, True))
    seconds = sum(answer.seconds for answer in answers)
    head = f'<testsuite name="golden" tests="{len(answers)}" failures="{failed}" errors="{broken}" time="{seconds:.3f}">\n'
    return ('<?xml version="1.0" encoding="UTF-8"?>\n' + head + "".join(map(case, answers)) + "</testsuite>\n").encode()
