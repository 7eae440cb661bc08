"""OWL 2 in the language of the reasoner: each axiom becomes axioms that follow from it.

An axiom that is written follows from the axiom of the file that stands on its line, where each new name means what
its definition says. So what follows from the translation follows from the whole file.
"""
