package jezundwa.owlapi;

import java.util.List;
import org.semanticweb.owlapi.reasoner.TimeOutException;

/** Status 8: the budget of steps was spent before the answer was found. */
public final class BudgetSpentException extends TimeOutException {
    private static final long serialVersionUID = 1L;

    private final transient List<String> known;

    BudgetSpentException(String question, List<String> known) {
        super("the budget was spent on: " + question + Known.told(known));
        this.known = List.copyOf(known);
    }

    /** The lines of the answer that were there before. */
    public List<String> known() {
        return known;
    }
}
