package jezundwa.owlapi;

import static org.junit.Assert.assertEquals;
import static org.junit.Assert.assertFalse;
import static org.junit.Assert.assertThrows;
import static org.junit.Assert.assertTrue;

import java.util.ArrayList;
import java.util.List;
import java.util.Set;
import java.util.concurrent.atomic.AtomicInteger;
import org.junit.Test;
import org.semanticweb.owlapi.apibinding.OWLManager;
import org.semanticweb.owlapi.io.StringDocumentSource;
import org.semanticweb.owlapi.model.AddImport;
import org.semanticweb.owlapi.model.IRI;
import org.semanticweb.owlapi.model.OWLAxiom;
import org.semanticweb.owlapi.model.OWLOntology;
import org.semanticweb.owlapi.model.OWLOntologyChangeListener;
import org.semanticweb.owlapi.model.OWLOntologyCreationException;
import org.semanticweb.owlapi.model.OWLOntologyManager;
import org.semanticweb.owlapi.model.RemoveImport;
import org.semanticweb.owlapi.reasoner.AxiomNotInProfileException;
import org.semanticweb.owlapi.reasoner.BufferingMode;

/** Changes of the ontology, of what it imports, and of its imports. */
public class ChangesTest {
    private static final OWLAxiom A_IN_B = Ontologies.axiom("SubClassOf(:A :B)");
    private static final OWLAxiom B_IN_C = Ontologies.axiom("SubClassOf(:B :C)");
    private static final OWLAxiom A_IN_C = Ontologies.axiom("SubClassOf(:A :C)");

    @Test
    public void aBufferingReasonerTakesChangesAtItsFlush() {
        OWLOntology ontology = Ontologies.of(Set.of(A_IN_B));
        JezundwaReasoner reasoner = Called.reasoner(ontology);
        assertEquals(BufferingMode.BUFFERING, reasoner.getBufferingMode());
        assertFalse(reasoner.isEntailed(A_IN_C));
        ontology.getOWLOntologyManager().addAxiom(ontology, B_IN_C);
        ontology.getOWLOntologyManager().removeAxiom(ontology, A_IN_B);
        assertEquals(Set.of(B_IN_C), reasoner.getPendingAxiomAdditions());
        assertEquals(Set.of(A_IN_B), reasoner.getPendingAxiomRemovals());
        assertEquals(2, reasoner.getPendingChanges().size());
        assertTrue(reasoner.isEntailed(A_IN_B));
        assertFalse(reasoner.isEntailed(B_IN_C));
        ontology.getOWLOntologyManager().addAxiom(ontology, A_IN_B);
        assertEquals(Set.of(), reasoner.getPendingAxiomRemovals());
        reasoner.flush();
        assertEquals(List.of(), reasoner.getPendingChanges());
        assertEquals(Set.of(), reasoner.getPendingAxiomAdditions());
        assertTrue(reasoner.isEntailed(A_IN_C));
    }

    @Test
    public void aNonBufferingReasonerTakesThemAtOnce() {
        OWLOntology ontology = Ontologies.of(Set.of(A_IN_B));
        JezundwaReasoner reasoner =
            new JezundwaReasonerFactory().createNonBufferingReasoner(ontology, Called.configuration());
        assertFalse(reasoner.isEntailed(A_IN_C));
        ontology.getOWLOntologyManager().addAxiom(ontology, B_IN_C);
        assertEquals(List.of(), reasoner.getPendingChanges());
        assertTrue(reasoner.isEntailed(A_IN_C));
        assertTrue(reasoner.getSuperClasses(Ontologies.type("A"), false).containsEntity(Ontologies.type("C")));
        ontology.getOWLOntologyManager().removeAxiom(ontology, A_IN_B);
        assertFalse(reasoner.isEntailed(A_IN_C));
        assertFalse(reasoner.getSuperClasses(Ontologies.type("A"), false).containsEntity(Ontologies.type("C")));
    }

    @Test
    public void importsComeAndGo() throws OWLOntologyCreationException {
        OWLOntologyManager manager = OWLManager.createOWLOntologyManager();
        OWLOntology root = manager.createOntology(IRI.create("urn:root"));
        OWLOntology imported = manager.createOntology(IRI.create("urn:imported"));
        manager.addAxiom(root, A_IN_B);
        manager.addAxiom(imported, B_IN_C);
        JezundwaReasoner reasoner =
            new JezundwaReasonerFactory().createNonBufferingReasoner(root, Called.configuration());
        assertFalse(reasoner.isEntailed(A_IN_C));
        var declaration = manager.getOWLDataFactory().getOWLImportsDeclaration(IRI.create("urn:imported"));
        manager.applyChange(new AddImport(root, declaration));
        assertTrue(reasoner.isEntailed(A_IN_C));
        manager.removeAxiom(imported, B_IN_C);
        assertFalse(reasoner.isEntailed(A_IN_C));
        manager.addAxiom(imported, B_IN_C);
        manager.applyChange(new RemoveImport(root, declaration));
        assertFalse(reasoner.isEntailed(A_IN_C));
        manager.addAxiom(imported, A_IN_C);
        assertFalse("a change of what is not imported", reasoner.isEntailed(A_IN_C));
    }

    @Test
    public void whatAnImportBringsIsPending() throws OWLOntologyCreationException {
        OWLOntologyManager manager = OWLManager.createOWLOntologyManager();
        OWLOntology root = manager.createOntology(IRI.create("urn:root"));
        manager.addAxiom(root, A_IN_B);
        manager.addAxiom(manager.createOntology(IRI.create("urn:imported")), B_IN_C);
        JezundwaReasoner reasoner = Called.reasoner(root);
        var declaration = manager.getOWLDataFactory().getOWLImportsDeclaration(IRI.create("urn:imported"));
        manager.applyChange(new AddImport(root, declaration));
        assertEquals(Set.of(B_IN_C), reasoner.getPendingAxiomAdditions());
        assertFalse(reasoner.isEntailed(A_IN_C));
        reasoner.flush();
        assertTrue(reasoner.isEntailed(A_IN_C));
        manager.applyChange(new RemoveImport(root, declaration));
        assertEquals(Set.of(B_IN_C), reasoner.getPendingAxiomRemovals());
        assertEquals(Set.of(), reasoner.getPendingAxiomAdditions());
        reasoner.flush();
        assertFalse(reasoner.isEntailed(A_IN_C));
    }

    /** Loading is no change that a listener hears of. */
    @Test
    public void anImportMayBeLoadedAfterItsDeclaration() throws OWLOntologyCreationException {
        OWLOntologyManager manager = OWLManager.createOWLOntologyManager();
        OWLOntology root = manager.createOntology(IRI.create("urn:root"));
        manager.addAxiom(root, A_IN_B);
        manager.applyChange(new AddImport(root,
            manager.getOWLDataFactory().getOWLImportsDeclaration(IRI.create("urn:imported"))));
        JezundwaReasoner reasoner =
            new JezundwaReasonerFactory().createNonBufferingReasoner(root, Called.configuration());
        assertFalse(reasoner.isEntailed(A_IN_C));
        manager.loadOntologyFromOntologyDocument(new StringDocumentSource(
            "Ontology(<urn:imported> SubClassOf(<" + Ontologies.PREFIX + "B> <" + Ontologies.PREFIX + "C>))"));
        assertTrue(reasoner.isEntailed(A_IN_C));
    }

    @Test
    public void annotationsOfTheOntologyChangeNothing() {
        OWLOntology ontology = Ontologies.of(Set.of(A_IN_B));
        AtomicInteger calls = new AtomicInteger();
        JezundwaReasoner reasoner = new JezundwaReasonerFactory().createNonBufferingReasoner(ontology,
            Called.configuration().withMonitor(new Counting(calls)));
        reasoner.getTopClassNode();
        int before = calls.get();
        Ontologies.read("AnnotationAssertion(<http://www.w3.org/2000/01/rdf-schema#label> :A \"a\")").getAxioms()
            .forEach(axiom -> ontology.getOWLOntologyManager().addAxiom(ontology, axiom));
        reasoner.getTopClassNode();
        assertEquals(before, calls.get());
        ontology.getOWLOntologyManager().addAxiom(ontology, B_IN_C);
        reasoner.getTopClassNode();
        assertTrue(calls.get() > before);
    }

    private static final class Counting implements org.semanticweb.owlapi.reasoner.ReasonerProgressMonitor {
        private static final long serialVersionUID = 1L;
        private final transient AtomicInteger calls;

        Counting(AtomicInteger calls) {
            this.calls = calls;
        }

        @Override
        public void reasonerTaskStarted(String task) {
            calls.incrementAndGet();
        }
    }

    /** The manager is asked to forget just the listener that it was given. */
    @Test
    public void disposeRemovesTheListener() throws OWLOntologyCreationException {
        List<OWLOntologyChangeListener> listeners = new ArrayList<>();
        OWLOntologyManager real = OWLManager.createOWLOntologyManager();
        OWLOntologyManager watched = (OWLOntologyManager) java.lang.reflect.Proxy.newProxyInstance(
            getClass().getClassLoader(), new Class<?>[] {OWLOntologyManager.class}, (proxy, method, arguments) -> {
                if (method.getName().equals("addOntologyChangeListener")) {
                    listeners.add((OWLOntologyChangeListener) arguments[0]);
                } else if (method.getName().equals("removeOntologyChangeListener")) {
                    assertTrue(listeners.remove(arguments[0]));
                }
                return method.invoke(real, arguments);
            });
        OWLOntology ontology = real.createOntology(Set.of(A_IN_B));
        ontology.setOWLOntologyManager(watched);
        JezundwaReasoner reasoner = Called.reasoner(ontology);
        new JezundwaExplanations(ontology, Called.configuration()).dispose();
        assertEquals(1, listeners.size());
        reasoner.dispose();
        assertEquals(0, listeners.size());
    }

    @Test
    public void aStrictReasonerRefusesAtTheFlushAndKeepsWhatItKnew() {
        OWLOntology ontology = Ontologies.of(Set.of(A_IN_B));
        JezundwaReasoner reasoner = new JezundwaReasonerFactory().createReasoner(ontology,
            Called.configuration().withOutside(OutsidePolicy.STRICT));
        OWLAxiom outside = Ontologies.axiom("SymmetricObjectProperty(:r)");
        ontology.getOWLOntologyManager().addAxiom(ontology, outside);
        assertEquals(outside, assertThrows(AxiomNotInProfileException.class, reasoner::flush).getAxiom());
        assertTrue(reasoner.isEntailed(A_IN_B));
        ontology.getOWLOntologyManager().removeAxiom(ontology, outside);
        reasoner.flush();
        assertTrue(reasoner.isEntailed(A_IN_B));
    }
}
