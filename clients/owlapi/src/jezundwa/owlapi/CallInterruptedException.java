package jezundwa.owlapi;

import java.util.List;
import org.semanticweb.owlapi.reasoner.ReasonerInterruptedException;

/** Somebody interrupted the reasoner, or the thread that asked it; the program was ended. */
public final class CallInterruptedException extends ReasonerInterruptedException {
    private static final long serialVersionUID = 1L;

    private final transient List<String> known;

    CallInterruptedException(String question, List<String> known) {
        super("interrupted at: " + question + Known.told(known));
        this.known = List.copyOf(known);
    }

    /** The lines of the answer that were there before. */
    public List<String> known() {
        return known;
    }
}
