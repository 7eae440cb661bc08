package jezundwa.owlapi;

import java.util.ArrayList;
import java.util.EnumSet;
import java.util.HashSet;
import java.util.LinkedHashSet;
import java.util.List;
import java.util.Set;
import java.util.concurrent.locks.ReentrantLock;
import java.util.function.Function;
import java.util.function.Supplier;
import java.util.stream.Collectors;
import org.semanticweb.owlapi.model.AxiomType;
import org.semanticweb.owlapi.model.OWLAxiom;
import org.semanticweb.owlapi.model.OWLClass;
import org.semanticweb.owlapi.model.OWLClassExpression;
import org.semanticweb.owlapi.model.OWLDataFactory;
import org.semanticweb.owlapi.model.OWLDataProperty;
import org.semanticweb.owlapi.model.OWLDataPropertyAssertionAxiom;
import org.semanticweb.owlapi.model.OWLDataPropertyDomainAxiom;
import org.semanticweb.owlapi.model.OWLDataPropertyExpression;
import org.semanticweb.owlapi.model.OWLEntity;
import org.semanticweb.owlapi.model.OWLLiteral;
import org.semanticweb.owlapi.model.OWLNamedIndividual;
import org.semanticweb.owlapi.model.OWLObject;
import org.semanticweb.owlapi.model.OWLObjectPropertyExpression;
import org.semanticweb.owlapi.model.OWLOntology;
import org.semanticweb.owlapi.model.OWLOntologyChange;
import org.semanticweb.owlapi.model.parameters.Imports;
import org.semanticweb.owlapi.reasoner.BufferingMode;
import org.semanticweb.owlapi.reasoner.ClassExpressionNotInProfileException;
import org.semanticweb.owlapi.reasoner.FreshEntitiesException;
import org.semanticweb.owlapi.reasoner.FreshEntityPolicy;
import org.semanticweb.owlapi.reasoner.IndividualNodeSetPolicy;
import org.semanticweb.owlapi.reasoner.InferenceType;
import org.semanticweb.owlapi.reasoner.Node;
import org.semanticweb.owlapi.reasoner.NodeSet;
import org.semanticweb.owlapi.reasoner.OWLReasoner;
import org.semanticweb.owlapi.reasoner.UnsupportedEntailmentTypeException;
import org.semanticweb.owlapi.reasoner.impl.OWLDataPropertyNode;
import org.semanticweb.owlapi.reasoner.impl.OWLDataPropertyNodeSet;
import org.semanticweb.owlapi.reasoner.impl.OWLObjectPropertyNode;
import org.semanticweb.owlapi.reasoner.impl.OWLObjectPropertyNodeSet;
import org.semanticweb.owlapi.util.Version;

/**
 * The program as a reasoner of the OWL API. Classes and individuals are answered by what is entailed; the hierarchies
 * of properties, and all about data, by what axioms say directly or by chains.
 *
 * <p>Any thread may ask; one question is answered at a time. {@link #interrupt} ends the one that is under way, from
 * whichever thread. A change of the ontology is only noted, so it never waits for an answer.
 */
public final class JezundwaReasoner implements OWLReasoner {
    static final String NAME = "Jezundwa";
    private static final Version VERSION = new Version(1, 0, 0, 0);
    private static final Set<InferenceType> PRECOMPUTABLE = EnumSet.of(InferenceType.CLASS_HIERARCHY,
        InferenceType.CLASS_ASSERTIONS, InferenceType.OBJECT_PROPERTY_HIERARCHY, InferenceType.DATA_PROPERTY_HIERARCHY);
    private static final Set<AxiomType<?>> NOT_ASKED = Set.of(AxiomType.HAS_KEY, AxiomType.SWRL_RULE,
        AxiomType.DATATYPE_DEFINITION, AxiomType.SUB_DATA_PROPERTY, AxiomType.EQUIVALENT_DATA_PROPERTIES,
        AxiomType.DISJOINT_DATA_PROPERTIES, AxiomType.DATA_PROPERTY_DOMAIN, AxiomType.DATA_PROPERTY_RANGE,
        AxiomType.FUNCTIONAL_DATA_PROPERTY, AxiomType.DATA_PROPERTY_ASSERTION,
        AxiomType.NEGATIVE_DATA_PROPERTY_ASSERTION);

    private final OWLOntology root;
    private final OWLDataFactory factory;
    private final BufferingMode mode;
    private final JezundwaConfiguration configuration;
    private final CallRunner runner;
    private final PendingChanges pending;
    private final ReentrantLock lock = new ReentrantLock();
    private Snapshot snapshot;

    JezundwaReasoner(OWLOntology root, BufferingMode mode, JezundwaConfiguration configuration) {
        this.root = root;
        this.factory = root.getOWLOntologyManager().getOWLDataFactory();
        this.mode = mode;
        this.configuration = configuration;
        this.runner = new CallRunner(configuration);
        this.pending = new PendingChanges(root);
        this.snapshot = new Snapshot(root, configuration, runner);
        root.getOWLOntologyManager().addOntologyChangeListener(pending);
    }

    /** Does something about the ontology as it is, or as it was at the last flush, while no other thread does. */
    <T> T operation(Function<Snapshot, T> work) {
        lock.lock();
        try {
            if (lock.getHoldCount() == 1) {
                runner.begin();
            }
            if (mode == BufferingMode.NON_BUFFERING) {
                takeChanges();
            }
            return work.apply(snapshot);
        } finally {
            lock.unlock();
        }
    }

    /** The same of what a user names in a question: names that are unknown may be refused. */
    private <T> T operationOn(OWLObject named, Function<Snapshot, T> work) {
        return operation(current -> {
            requireKnown(named);
            return work.apply(current);
        });
    }

    private void takeChanges() {
        List<OWLOntologyChange> changes = pending.all();
        if (pending.haveMeaning() || !snapshot.isOf(root)) {
            snapshot = new Snapshot(root, configuration, runner);
        }
        pending.forget(changes.size());
    }

    private void requireKnown(OWLObject named) {
        if (configuration.getFreshEntityPolicy() == FreshEntityPolicy.ALLOW) {
            return;
        }
        Set<OWLEntity> fresh = named.getSignature().stream()
            .filter(entity -> !entity.isBuiltIn() && !root.containsEntityInSignature(entity, Imports.INCLUDED))
            .collect(Collectors.toCollection(LinkedHashSet::new));
        if (!fresh.isEmpty()) {
            throw new FreshEntitiesException(fresh);
        }
    }

    private static <T> T inLanguage(OWLClassExpression type, Supplier<T> answer) {
        try {
            return answer.get();
        } catch (ProgramException.OutsideLanguage outside) {
            throw new ClassExpressionNotInProfileException(type, OntologyDocument.PROFILE);
        }
    }

    /** What of the ontology the answers rest on, and which of them hold of the whole. */
    public Coverage coverage() {
        return operation(current -> current.document().coverage());
    }

    /** The ontology as the program reads it, with the names of the ontology. */
    public String document() {
        return operation(current -> current.document().names().decode(current.document().text().text()));
    }

    @Override
    public String getReasonerName() {
        return NAME;
    }

    @Override
    public Version getReasonerVersion() {
        return VERSION;
    }

    @Override
    public BufferingMode getBufferingMode() {
        return mode;
    }

    @Override
    public void flush() {
        operation(current -> {
            takeChanges();
            return null;
        });
    }

    @Override
    public List<OWLOntologyChange> getPendingChanges() {
        return mode == BufferingMode.NON_BUFFERING ? List.of() : pending.all();
    }

    @Override
    public Set<OWLAxiom> getPendingAxiomAdditions() {
        return pendingAxioms(true);
    }

    @Override
    public Set<OWLAxiom> getPendingAxiomRemovals() {
        return pendingAxioms(false);
    }

    /** Also what an import brings or takes away is to be added or removed, though no change names it. */
    private Set<OWLAxiom> pendingAxioms(boolean isAdded) {
        return operation(current -> {
            Set<OWLAxiom> now = OntologyDocument.logicalAxioms(root);
            Set<OWLAxiom> taken = current.document().axioms();
            Set<OWLAxiom> found = new LinkedHashSet<>(isAdded ? now : taken);
            found.removeAll(isAdded ? taken : now);
            return found;
        });
    }

    @Override
    public OWLOntology getRootOntology() {
        return root;
    }

    @Override
    public void interrupt() {
        runner.interrupt();
    }

    @Override
    public void dispose() {
        root.getOWLOntologyManager().removeOntologyChangeListener(pending);
    }

    @Override
    public long getTimeOut() {
        return configuration.getTimeOut();
    }

    @Override
    public FreshEntityPolicy getFreshEntityPolicy() {
        return configuration.getFreshEntityPolicy();
    }

    @Override
    public IndividualNodeSetPolicy getIndividualNodeSetPolicy() {
        return configuration.getIndividualNodeSetPolicy();
    }

    @Override
    public Set<InferenceType> getPrecomputableInferenceTypes() {
        return PRECOMPUTABLE;
    }

    @Override
    public void precomputeInferences(InferenceType... inferenceTypes) {
        operation(current -> {
            for (InferenceType type : inferenceTypes) {
                switch (type) {
                    case CLASS_HIERARCHY -> current.classes();
                    case CLASS_ASSERTIONS -> current.types();
                    case OBJECT_PROPERTY_HIERARCHY -> current.objectProperties().hierarchy();
                    case DATA_PROPERTY_HIERARCHY -> current.dataProperties().hierarchy();
                    default -> { }
                }
            }
            return null;
        });
    }

    @Override
    public boolean isPrecomputed(InferenceType type) {
        return operation(current -> switch (type) {
            case CLASS_HIERARCHY -> current.hasClasses();
            case CLASS_ASSERTIONS -> current.hasTypes();
            case OBJECT_PROPERTY_HIERARCHY, DATA_PROPERTY_HIERARCHY -> true;
            default -> false;
        });
    }

    @Override
    public boolean isConsistent() {
        return operation(Snapshot::isConsistent);
    }

    @Override
    public boolean isSatisfiable(OWLClassExpression type) {
        return operationOn(type, current -> {
            current.requireConsistent();
            Node<OWLClass> node = current.hasClasses() ? new ClassAnswers(current).node(type) : null;
            if (node != null) {
                return !node.isBottomNode();
            }
            return inLanguage(type, () -> !current.follow(
                List.of(Question.of(factory.getOWLSubClassOfAxiom(type, factory.getOWLNothing())))).get(0));
        });
    }

    @Override
    public Node<OWLClass> getUnsatisfiableClasses() {
        return getBottomClassNode();
    }

    @Override
    public boolean isEntailed(OWLAxiom axiom) {
        return isEntailed(Set.of(axiom));
    }

    @Override
    public boolean isEntailed(Set<? extends OWLAxiom> axioms) {
        return operation(current -> {
            axioms.forEach(this::requireKnown);
            current.requireConsistent();
            List<Question> questions = new ArrayList<>();
            axioms.forEach(axiom -> questions.addAll(questions(current, axiom)));
            return !current.follow(questions).contains(false);
        });
    }

    /** What an axiom comes to; it is refused where the language of the program has no words for that. */
    static List<Question> questions(Snapshot current, OWLAxiom axiom) {
        List<Question> questions = current.reductions().of(axiom);
        try {
            questions.forEach(current.asker()::requireInLanguage);
        } catch (ProgramException.OutsideLanguage outside) {
            throw new UnsupportedEntailmentTypeException(axiom);
        }
        return questions;
    }

    @Override
    public boolean isEntailmentCheckingSupported(AxiomType<?> axiomType) {
        return !NOT_ASKED.contains(axiomType);
    }

    @Override
    public Node<OWLClass> getTopClassNode() {
        return operation(current -> current.classes().top());
    }

    @Override
    public Node<OWLClass> getBottomClassNode() {
        return operation(current -> current.classes().bottom());
    }

    @Override
    public NodeSet<OWLClass> getSubClasses(OWLClassExpression type, boolean isDirect) {
        return operationOn(type,
            current -> inLanguage(type, () -> new ClassAnswers(current).subClasses(type, isDirect)));
    }

    @Override
    public NodeSet<OWLClass> getSuperClasses(OWLClassExpression type, boolean isDirect) {
        return operationOn(type,
            current -> inLanguage(type, () -> new ClassAnswers(current).superClasses(type, isDirect)));
    }

    @Override
    public Node<OWLClass> getEquivalentClasses(OWLClassExpression type) {
        return operationOn(type, current -> inLanguage(type, () -> new ClassAnswers(current).equivalentClasses(type)));
    }

    @Override
    public NodeSet<OWLClass> getDisjointClasses(OWLClassExpression type) {
        return operationOn(type, current -> inLanguage(type, () -> new ClassAnswers(current).disjointClasses(type)));
    }

    @Override
    public NodeSet<OWLClass> getTypes(OWLNamedIndividual individual, boolean isDirect) {
        return operationOn(individual, current -> individuals(current).types(individual, isDirect));
    }

    @Override
    public NodeSet<OWLNamedIndividual> getInstances(OWLClassExpression type, boolean isDirect) {
        return operationOn(type, current -> inLanguage(type, () -> {
            current.requireConsistent();
            return individuals(current).instances(type, isDirect);
        }));
    }

    @Override
    public Node<OWLNamedIndividual> getSameIndividuals(OWLNamedIndividual individual) {
        return operationOn(individual, current -> {
            current.requireConsistent();
            return individuals(current).sameIndividuals(individual);
        });
    }

    @Override
    public NodeSet<OWLNamedIndividual> getDifferentIndividuals(OWLNamedIndividual individual) {
        return operationOn(individual, current -> {
            current.requireConsistent();
            return individuals(current).differentIndividuals(individual);
        });
    }

    @Override
    public NodeSet<OWLNamedIndividual> getObjectPropertyValues(OWLNamedIndividual individual,
            OWLObjectPropertyExpression role) {
        return operationOn(individual, current -> {
            requireKnown(role);
            current.requireConsistent();
            return individuals(current).values(individual, role);
        });
    }

    private IndividualAnswers individuals(Snapshot current) {
        return new IndividualAnswers(current, configuration.getIndividualNodeSetPolicy());
    }

    @Override
    public NodeSet<OWLClass> getObjectPropertyDomains(OWLObjectPropertyExpression role, boolean isDirect) {
        return operationOn(role, current -> new ClassAnswers(current)
            .classesOf(type -> factory.getOWLObjectPropertyDomainAxiom(role, type), isDirect));
    }

    @Override
    public NodeSet<OWLClass> getObjectPropertyRanges(OWLObjectPropertyExpression role, boolean isDirect) {
        return operationOn(role, current -> new ClassAnswers(current)
            .classesOf(type -> factory.getOWLObjectPropertyRangeAxiom(role, type), isDirect));
    }

    @Override
    public Node<OWLObjectPropertyExpression> getTopObjectPropertyNode() {
        return operation(current -> current.objectProperties().hierarchy().top());
    }

    @Override
    public Node<OWLObjectPropertyExpression> getBottomObjectPropertyNode() {
        return operation(current -> current.objectProperties().hierarchy().bottom());
    }

    @Override
    public NodeSet<OWLObjectPropertyExpression> getSubObjectProperties(OWLObjectPropertyExpression role,
            boolean isDirect) {
        return operationOn(role,
            current -> new OWLObjectPropertyNodeSet(current.objectProperties().below(role, isDirect)));
    }

    @Override
    public NodeSet<OWLObjectPropertyExpression> getSuperObjectProperties(OWLObjectPropertyExpression role,
            boolean isDirect) {
        return operationOn(role,
            current -> new OWLObjectPropertyNodeSet(current.objectProperties().above(role, isDirect)));
    }

    @Override
    public Node<OWLObjectPropertyExpression> getEquivalentObjectProperties(OWLObjectPropertyExpression role) {
        return operationOn(role, current -> {
            Node<OWLObjectPropertyExpression> node = current.objectProperties().hierarchy().node(role);
            return node == null ? new OWLObjectPropertyNode(role) : node;
        });
    }

    @Override
    public NodeSet<OWLObjectPropertyExpression> getDisjointObjectProperties(OWLObjectPropertyExpression role) {
        return operationOn(role, current -> new OWLObjectPropertyNodeSet(current.objectProperties().disjoint(role)));
    }

    @Override
    public Node<OWLObjectPropertyExpression> getInverseObjectProperties(OWLObjectPropertyExpression role) {
        return getEquivalentObjectProperties(role.getInverseProperty());
    }

    @Override
    public Node<OWLDataProperty> getTopDataPropertyNode() {
        return operation(current -> current.dataProperties().hierarchy().top());
    }

    @Override
    public Node<OWLDataProperty> getBottomDataPropertyNode() {
        return operation(current -> current.dataProperties().hierarchy().bottom());
    }

    @Override
    public NodeSet<OWLDataProperty> getSubDataProperties(OWLDataProperty property, boolean isDirect) {
        return operationOn(property,
            current -> new OWLDataPropertyNodeSet(current.dataProperties().below(property, isDirect)));
    }

    @Override
    public NodeSet<OWLDataProperty> getSuperDataProperties(OWLDataProperty property, boolean isDirect) {
        return operationOn(property,
            current -> new OWLDataPropertyNodeSet(current.dataProperties().above(property, isDirect)));
    }

    @Override
    public Node<OWLDataProperty> getEquivalentDataProperties(OWLDataProperty property) {
        return operationOn(property, current -> {
            Node<OWLDataProperty> node = current.dataProperties().hierarchy().node(property);
            return node == null ? new OWLDataPropertyNode(property) : node;
        });
    }

    @Override
    public NodeSet<OWLDataProperty> getDisjointDataProperties(OWLDataPropertyExpression property) {
        return operationOn(property, current -> new OWLDataPropertyNodeSet(
            current.dataProperties().disjoint(property.asOWLDataProperty())));
    }

    /** The classes in which all told domains of the property, and of those above it, meet. */
    @Override
    public NodeSet<OWLClass> getDataPropertyDomains(OWLDataProperty property, boolean isDirect) {
        return operationOn(property, current -> {
            Set<OWLDataProperty> above = new HashSet<>(Set.of(property));
            current.dataProperties().above(property, false).forEach(node -> node.forEach(above::add));
            getEquivalentDataProperties(property).forEach(above::add);
            Set<OWLClassExpression> domains = new LinkedHashSet<>();
            for (OWLAxiom axiom : current.document().axioms()) {
                if (axiom instanceof OWLDataPropertyDomainAxiom domain
                    && above.contains(domain.getProperty().asOWLDataProperty())) {
                    domains.add(domain.getDomain());
                }
            }
            OWLClassExpression all = factory.getOWLObjectIntersectionOf(domains);
            return inLanguage(all, () -> new ClassAnswers(current).andSuperClasses(
                domains.isEmpty() ? factory.getOWLThing() : all, isDirect));
        });
    }

    /** The told values of the individual, and of those that are one with it, also by properties below. */
    @Override
    public Set<OWLLiteral> getDataPropertyValues(OWLNamedIndividual individual, OWLDataProperty property) {
        return operationOn(individual, current -> {
            requireKnown(property);
            current.requireConsistent();
            Set<OWLDataProperty> below = new HashSet<>(Set.of(property));
            current.dataProperties().below(property, false).forEach(node -> node.forEach(below::add));
            getEquivalentDataProperties(property).forEach(below::add);
            Node<OWLNamedIndividual> same = individuals(current).sameIndividuals(individual);
            Set<OWLLiteral> values = new LinkedHashSet<>();
            for (OWLAxiom axiom : current.document().axioms()) {
                if (axiom instanceof OWLDataPropertyAssertionAxiom assertion && assertion.getSubject().isNamed()
                    && same.contains(assertion.getSubject().asOWLNamedIndividual())
                    && below.contains(assertion.getProperty().asOWLDataProperty())) {
                    values.add(assertion.getObject());
                }
            }
            return values;
        });
    }
}
