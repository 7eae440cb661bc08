"""What to say where an answer is undecided: how to allow more."""
import shlex

from shq_tools.budgets import FIRST, MOST, budget_in
from shq_tools.messages import seconds_text
from shq_tools.words import without_budget

NO_MORE = "and no more can be allowed"


def steps_in(words):
    """How many steps the words allow."""
    return budget_in(words) or FIRST


def asked_again(question, *more):
    """The words of a command that asks the same, and has these words besides."""
    words = without_budget(list(question.words))
    rest = [
        word
        for name, value in question.options.items()
        if name not in ("--budget", "--seconds")
        for word in ([f"{name}={value}"] if value else [name])
    ]
    file = [it for it in (question.file, question.script) if it is not None]
    text = shlex.join(["./shq", *words, *rest, *more, *file])
    return text if file or not question.command.files else f"{text} < FILE"


def hint_on_budget(question):
    """What to say where the steps that the words allow were spent."""
    steps = steps_in(question.words)
    spent = "the one step that was allowed is" if steps == 1 else f"the {steps:,} steps that were allowed are"
    said = f"undecided: {spent} spent"
    if steps >= MOST:
        return f"{said}, {NO_MORE}"
    more = min(10 * steps, MOST)
    return f"{said}; to allow more, write\n  {asked_again(question, '--budget', str(more))}"


def hint_on_seconds(question, known, seconds):
    """What to say where the seconds were over, or the greatest budget was spent."""
    if known.budget >= MOST:
        return f"undecided: the greatest budget, {MOST:,} steps, is spent, {NO_MORE}"
    spent = f"with a budget of {known.budget:,} steps" if known.budget else "before any run had ended"
    said = f"undecided after {seconds_text(seconds)}, {spent}"
    return f"{said}; to allow more, write\n  {asked_again(question, '--seconds', f'{10 * seconds:g}')}"
