package jezundwa.owlapi;

import org.semanticweb.owlapi.model.OWLAxiom;
import org.semanticweb.owlapi.reasoner.AxiomNotInProfileException;

/** Under {@code STRICT}: an axiom of the ontology is outside of the language, by the construct that is named. */
public final class OutsideAxiomException extends AxiomNotInProfileException {
    private static final long serialVersionUID = 1L;

    private final String construct;

    OutsideAxiomException(OWLAxiom axiom, String construct) {
        super(axiom, OntologyDocument.PROFILE);
        this.construct = construct;
    }

    /** The construct, by its keyword in functional-style syntax, or as the program names it. */
    public String construct() {
        return construct;
    }

    @Override
    public String getMessage() {
        return construct + " is outside of the language: " + getAxiom();
    }
}
