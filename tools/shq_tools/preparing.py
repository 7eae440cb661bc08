"""What is done to a question and its ontology before the program is asked.

A call that prepares has the form `call(question, source, value)`: the question as `words.Asked`, what the job reads as
`sources.Source`, and the value of its option (empty for a switch). It answers with the two as the program is to get
them, `(question, source)`, changed by `dataclasses.replace`. What it has to tell the person it says on standard error.
Where it cannot go on it raises `Unprepared` with what to say and the status to end with.

`FIRST` are the calls that every job on an ontology makes first, and `LAST` those that it makes last, each in order;
in between come those of the options, by their field `prepares`, in the order in which the table has them.
"""
from shq_tools.commands import called

FIRST = ("shq_tools.converting:prepared",)
LAST = ("shq_tools.questions:prepared",)


class Unprepared(Exception):
    """A question that the program is not asked, with what to say, and the status to end with."""

    def __init__(self, text, status):
        super().__init__(text)
        self.status = status


def prepared(question, source):
    """The question and what the job reads, as the program is to get them. Raises `Unprepared`."""
    options = [it for it in question.command.options if it.prepares and it.name in question.options]
    steps = [(it, "") for it in FIRST]
    steps += [(it.prepares, question.options[it.name]) for it in options]
    steps += [(it, "") for it in LAST]
    for place, value in steps:
        question, source = called(place)(question, source, value)
    return question, source
