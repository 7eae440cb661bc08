package jezundwa.owlapi;

import java.util.ArrayList;
import java.util.List;
import java.util.Set;
import org.semanticweb.owlapi.model.OWLDeclarationAxiom;
import org.semanticweb.owlapi.model.OWLOntology;
import org.semanticweb.owlapi.model.OWLOntologyChange;
import org.semanticweb.owlapi.model.OWLOntologyChangeListener;

/** Changes of an ontology and what it imports that were made since they were last taken over. */
final class PendingChanges implements OWLOntologyChangeListener {
    private final OWLOntology root;
    private final List<OWLOntologyChange> changes = new ArrayList<>();

    PendingChanges(OWLOntology root) {
        this.root = root;
    }

    /** Only notes them, so that an editor never waits for an answer that is under way. */
    @Override
    public synchronized void ontologiesChanged(List<? extends OWLOntologyChange> made) {
        Set<OWLOntology> closure = root.getImportsClosure();
        made.stream().filter(change -> closure.contains(change.getOntology())).forEach(changes::add);
    }

    synchronized List<OWLOntologyChange> all() {
        return new ArrayList<>(changes);
    }

    /** Whether some change may change an answer: annotations have no meaning. */
    synchronized boolean haveMeaning() {
        return changes.stream().anyMatch(change -> change.isImportChange() || change.isAxiomChange()
            && (change.getAxiom().isLogicalAxiom() || change.getAxiom() instanceof OWLDeclarationAxiom));
    }

    /** Forgets the first ones, which were taken over. */
    synchronized void forget(int count) {
        changes.subList(0, Math.min(count, changes.size())).clear();
    }
}
