package jezundwa.owlapi;

/**
 * What shows that a statement follows, or that it does not, for {@code shq check}, which needs neither trust in the
 * search nor in this client: {@code shq check STATEMENT} accepts the document with the certificate behind it.
 *
 * @param statement the statement that is shown or refuted; it speaks of helpers where the axiom had to be asked so
 * @param document the ontology as the program reads it, with what the question assumes
 * @param text the certificate: a refutation, or a model
 */
public record Certificate(String statement, String document, String text) {
    /** Whether it shows that the statement follows. */
    public boolean isOfEntailment() {
        return text.startsWith("entailed");
    }
}
