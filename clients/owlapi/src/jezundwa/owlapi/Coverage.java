package jezundwa.owlapi;

import java.util.Collections;
import java.util.Map;
import org.semanticweb.owlapi.model.OWLAxiom;

/**
 * What of an ontology the answers do not rest on, and what an answer is worth for the whole of it. What follows from
 * the part that was taken follows from the whole, so a yes is always certain, and so is a contradictory class, an
 * inconsistency, or that a set of axioms is enough. A no is certain only where everything was taken: what does not
 * follow from a part may still follow from the whole.
 */
public final class Coverage {
    private final OutsidePolicy policy;
    private final Map<OWLAxiom, String> outside;
    private final String summary;

    Coverage(OutsidePolicy policy, Map<OWLAxiom, String> outside, String summary) {
        this.policy = policy;
        this.outside = Collections.unmodifiableMap(outside);
        this.summary = summary;
    }

    public OutsidePolicy policy() {
        return policy;
    }

    /** Each axiom that was left out, or of which a weaker form was taken, with the first construct that is outside. */
    public Map<OWLAxiom, String> outside() {
        return outside;
    }

    /** Whether all axioms were taken as they are. */
    public boolean isWhole() {
        return outside.isEmpty();
    }

    /** Whether an answer, that something follows or that it does not, holds of the whole ontology. */
    public boolean isCertain(boolean follows) {
        return follows || isWhole();
    }

    /** What {@code shq approximate} said of its translation; empty under another policy. */
    public String summary() {
        return summary;
    }

    /** The report in a few lines of text. */
    @Override
    public String toString() {
        if (isWhole()) {
            return "All axioms were taken as they are. Each answer holds of the whole ontology.";
        }
        String taken = policy == OutsidePolicy.APPROXIMATE ? "taken in a weaker form or left out" : "left out";
        return outside.size() + " axioms are outside of the language and were " + taken
            + ". That something follows holds of the whole ontology; that something does not follow holds of the rest"
            + " alone."
            + (summary.isEmpty() ? "" : "\n" + summary);
    }
}
