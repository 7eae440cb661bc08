package jezundwa.owlapi;

import java.util.Collections;
import java.util.LinkedHashMap;
import java.util.LinkedHashSet;
import java.util.List;
import java.util.Map;
import java.util.Set;
import java.util.stream.Collectors;
import org.semanticweb.owlapi.model.OWLClass;
import org.semanticweb.owlapi.model.OWLDataFactory;
import org.semanticweb.owlapi.model.OWLDataProperty;
import org.semanticweb.owlapi.model.OWLIndividual;
import org.semanticweb.owlapi.model.OWLNamedIndividual;
import org.semanticweb.owlapi.model.OWLObjectPropertyExpression;
import org.semanticweb.owlapi.model.OWLOntology;
import org.semanticweb.owlapi.model.OWLOntologyID;
import org.semanticweb.owlapi.model.parameters.Imports;
import org.semanticweb.owlapi.reasoner.InconsistentOntologyException;
import org.semanticweb.owlapi.reasoner.Node;

/** An ontology at one moment, with what was found out of it: each is asked for once, and kept. */
final class Snapshot {
    private static final int FIRST_TYPE_WORD = 3;

    private final OWLDataFactory factory;
    private final Set<OWLOntologyID> closure;
    private final OntologyDocument document;
    private final QuestionAsker asker;
    private final Reductions reductions;
    private final Set<OWLNamedIndividual> individuals;
    private final ToldProperties<OWLObjectPropertyExpression> objectProperties;
    private final ToldProperties<OWLDataProperty> dataProperties;
    private Boolean isConsistent;
    private Hierarchy<OWLClass> classes;
    private Map<OWLNamedIndividual, Set<Node<OWLClass>>> types;

    Snapshot(OWLOntology root, JezundwaConfiguration configuration, CallRunner runner) {
        factory = root.getOWLOntologyManager().getOWLDataFactory();
        closure = closure(root);
        document = new OntologyDocument(root, configuration, new Translator(configuration, runner));
        asker = new QuestionAsker(document, configuration, runner, factory);
        reductions = new Reductions(factory);
        individuals = Collections.unmodifiableSet(
            new LinkedHashSet<>(root.getIndividualsInSignature(Imports.INCLUDED)));
        objectProperties = ToldReader.objectProperties(root, document.axioms());
        dataProperties = ToldReader.dataProperties(root, document.axioms());
    }

    private static Set<OWLOntologyID> closure(OWLOntology root) {
        return root.getImportsClosure().stream().map(OWLOntology::getOntologyID).collect(Collectors.toSet());
    }

    /** Whether an ontology imports what it did then: an import may be loaded without any change of the ontology. */
    boolean isOf(OWLOntology root) {
        return closure.equals(closure(root));
    }

    OWLDataFactory factory() {
        return factory;
    }

    OntologyDocument document() {
        return document;
    }

    QuestionAsker asker() {
        return asker;
    }

    Reductions reductions() {
        return reductions;
    }

    Set<OWLNamedIndividual> individuals() {
        return individuals;
    }

    ToldProperties<OWLObjectPropertyExpression> objectProperties() {
        return objectProperties;
    }

    ToldProperties<OWLDataProperty> dataProperties() {
        return dataProperties;
    }

    boolean isConsistent() {
        if (isConsistent == null) {
            isConsistent = !asker.follow(List.of(reductions.contradiction(List.of())), false).get(0);
        }
        return isConsistent;
    }

    void requireConsistent() {
        if (!isConsistent()) {
            throw new InconsistentOntologyException();
        }
    }

    /** Whether each question follows, of an ontology that has to be consistent. */
    List<Boolean> follow(List<Question> questions) {
        requireConsistent();
        return asker.follow(questions, true);
    }

    boolean hasClasses() {
        return classes != null;
    }

    Hierarchy<OWLClass> classes() {
        requireConsistent();
        if (classes == null) {
            classes = TaxonomyReader.read(asker.onTerms("classify", "Classifying").lines(), document.names(), factory);
        }
        return classes;
    }

    boolean hasTypes() {
        return types != null;
    }

    /** Of each named individual the nodes of its most specific classes. */
    Map<OWLNamedIndividual, Set<Node<OWLClass>>> types() {
        Hierarchy<OWLClass> hierarchy = classes();
        if (types == null) {
            Map<OWLNamedIndividual, Set<Node<OWLClass>>> found = new LinkedHashMap<>();
            individuals.forEach(individual -> found.put(individual, Set.of(hierarchy.top())));
            if (!individuals.isEmpty()) {
                asker.onDocument("realize", "Realizing").lines().forEach(line -> readTypes(line, found));
            }
            types = found;
        }
        return types;
    }

    /** A line {@code individual NAME types NAME ..}; types that are none of the ontology lead to what is above them. */
    private void readTypes(String line, Map<OWLNamedIndividual, Set<Node<OWLClass>>> found) {
        String[] words = line.split(" ");
        OWLIndividual individual = words[0].equals("individual") ? document.names().individualOf(words[1]) : null;
        if (individual == null || individual.isAnonymous()) {
            return;
        }
        Set<Node<OWLClass>> direct = new LinkedHashSet<>();
        for (int at = FIRST_TYPE_WORD; at < words.length; at++) {
            OWLClass type = document.names().classOf(words[at]);
            if (type != null) {
                direct.add(classes.node(type));
            }
        }
        if (direct.size() < words.length - FIRST_TYPE_WORD && !words[FIRST_TYPE_WORD].equals("owl:Thing")) {
            direct = typesByInstances(individual.asOWLNamedIndividual());
        }
        found.put(individual.asOWLNamedIndividual(), direct.isEmpty() ? Set.of(classes.top()) : direct);
    }

    /** The most specific nodes of an individual whose types are partly helpers, by asking class by class. */
    private Set<Node<OWLClass>> typesByInstances(OWLNamedIndividual individual) {
        Placement placement = new Placement(classes);
        Set<Node<OWLClass>> all = placement.above(nodes -> asker.follow(nodes.stream()
            .map(node -> Question.of(
                factory.getOWLClassAssertionAxiom(node.getRepresentativeElement(), individual))).toList(), true));
        return placement.lowest(all);
    }
}
