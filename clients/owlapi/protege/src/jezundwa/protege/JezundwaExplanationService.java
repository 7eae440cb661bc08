package jezundwa.protege;

import java.awt.BorderLayout;
import java.util.Set;
import java.util.TreeSet;
import javax.swing.JScrollPane;
import javax.swing.JTextArea;
import jezundwa.owlapi.AxiomSets;
import jezundwa.owlapi.JezundwaConfiguration;
import jezundwa.owlapi.JezundwaExplanations;
import org.protege.editor.owl.ui.explanation.ExplanationResult;
import org.protege.editor.owl.ui.explanation.ExplanationService;
import org.semanticweb.owlapi.model.OWLAxiom;
import org.semanticweb.owlapi.reasoner.OWLReasonerRuntimeException;

/** Shows all reasons for an inferred axiom, and all repairs, whichever reasoner inferred it. */
public class JezundwaExplanationService extends ExplanationService {
    @Override
    public void initialise() {
        // Each explanation is of the ontology that is active when it is asked for.
    }

    @Override
    public boolean hasExplanation(OWLAxiom axiom) {
        return axiom.isLogicalAxiom();
    }

    @Override
    public ExplanationResult explain(OWLAxiom axiom) {
        return new Shown(text(axiom));
    }

    @Override
    public void dispose() {
        // No explanation is kept.
    }

    private String text(OWLAxiom axiom) {
        JezundwaExplanations explanations =
            new JezundwaExplanations(getOWLModelManager().getActiveOntology(), new JezundwaConfiguration());
        try {
            StringBuilder text = new StringBuilder();
            put("Reason", explanations.justifications(axiom), text);
            put("Repair", explanations.repairs(axiom), text);
            return text.append(explanations.coverage()).toString();
        } catch (OWLReasonerRuntimeException fault) {
            return fault.getMessage();
        } finally {
            explanations.dispose();
        }
    }

    private void put(String name, AxiomSets found, StringBuilder text) {
        int number = 0;
        for (Set<OWLAxiom> set : found.sets()) {
            text.append(name).append(' ').append(++number).append('\n');
            new TreeSet<>(set).forEach(
                axiom -> text.append("  ").append(getOWLModelManager().getRendering(axiom)).append('\n'));
        }
        text.append(found.isWhole() ? "" : "There may be more: the budget was spent.\n").append('\n');
    }

    /** A text in a panel. */
    private static final class Shown extends ExplanationResult {
        private static final long serialVersionUID = 1L;

        Shown(String text) {
            setLayout(new BorderLayout());
            JTextArea area = new JTextArea(text);
            area.setEditable(false);
            add(new JScrollPane(area));
        }

        @Override
        public void dispose() {
            // Nothing is held.
        }
    }
}
