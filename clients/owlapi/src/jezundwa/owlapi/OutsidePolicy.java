package jezundwa.owlapi;

/** What is done with axioms that are outside of SHQ with individuals, the language that the program reads. */
public enum OutsidePolicy {
    /** The ontology is refused, with the first such axiom and the construct that is outside. */
    STRICT,
    /** Each such axiom is left out whole. What follows from the rest follows from the whole ontology too. */
    LEAVE_OUT,
    /** {@code shq approximate} writes of each such axiom what can be said in the language, and follows from it. */
    APPROXIMATE
}
