package jezundwa.owlapi;

import static org.junit.Assert.assertEquals;
import static org.junit.Assert.assertFalse;
import static org.junit.Assert.assertThrows;
import static org.junit.Assert.assertTrue;
import static org.junit.Assume.assumeTrue;

import java.util.ArrayList;
import java.util.HashSet;
import java.util.List;
import java.util.Set;
import java.util.TreeSet;
import java.util.function.Function;
import java.util.stream.Collectors;
import java.util.stream.IntStream;
import org.junit.Test;
import org.semanticweb.owlapi.apibinding.OWLManager;
import org.semanticweb.owlapi.model.OWLAxiom;
import org.semanticweb.owlapi.model.OWLClass;
import org.semanticweb.owlapi.model.OWLClassExpression;
import org.semanticweb.owlapi.model.OWLDataFactory;
import org.semanticweb.owlapi.model.OWLEquivalentClassesAxiom;
import org.semanticweb.owlapi.model.OWLNamedIndividual;
import org.semanticweb.owlapi.model.OWLObjectProperty;
import org.semanticweb.owlapi.model.OWLObjectPropertyExpression;
import org.semanticweb.owlapi.model.OWLOntology;
import org.semanticweb.owlapi.model.OWLSubClassOfAxiom;
import org.semanticweb.owlapi.model.parameters.Imports;
import org.semanticweb.owlapi.reasoner.FreshEntitiesException;
import org.semanticweb.owlapi.reasoner.FreshEntityPolicy;
import org.semanticweb.owlapi.reasoner.IndividualNodeSetPolicy;
import org.semanticweb.owlapi.reasoner.InferenceType;
import org.semanticweb.owlapi.reasoner.Node;

/** The calls of {@code OWLReasoner}: by hand, and against {@code isEntailed} on random ontologies. */
public class ReasonerCallsTest {
    private static final OWLDataFactory FACTORY = OWLManager.getOWLDataFactory();
    private static final OWLClass THING = FACTORY.getOWLThing();
    private static final OWLClass NOTHING = FACTORY.getOWLNothing();

    private static Set<OWLClass> classes(String... names) {
        return java.util.Arrays.stream(names).map(Ontologies::type).collect(Collectors.toSet());
    }

    private static final String ANIMALS = """
        SubClassOf(:Dog :Animal)
        SubClassOf(:Puppy :Dog)
        EquivalentClasses(:Hound :Dog)
        SubClassOf(:Cat :Animal)
        DisjointClasses(:Dog :Cat)
        SubClassOf(:Chimera ObjectIntersectionOf(:Dog :Cat))
        EquivalentClasses(:Owner ObjectSomeValuesFrom(:owns :Animal))
        SubObjectPropertyOf(:owns :has)
        SubObjectPropertyOf(:breeds :owns)
        EquivalentObjectProperties(:owns :possesses)
        DisjointObjectProperties(:has :lacks)
        InverseObjectProperties(:owns :isOwnedBy)
        SubDataPropertyOf(:age :number)
        DataPropertyDomain(:number :Animal)
        DataPropertyAssertion(:age :rex "3"^^xsd:integer)
        ClassAssertion(:Puppy :rex)
        ObjectPropertyAssertion(:owns :ann :rex)
        SameIndividual(:ann :anna)
        ClassAssertion(:Cat :tom)
        """;

    @Test
    public void classesByHand() {
        JezundwaReasoner reasoner = Called.reasoner(Ontologies.read(ANIMALS));
        assertTrue(reasoner.isConsistent());
        assertEquals(classes("Dog", "Hound"), reasoner.getEquivalentClasses(Ontologies.type("Dog")).getEntities());
        assertEquals(classes("Dog", "Hound"), reasoner.getSuperClasses(Ontologies.type("Puppy"), true).getFlattened());
        assertEquals(classes("Dog", "Hound", "Cat"),
            reasoner.getSubClasses(Ontologies.type("Animal"), true).getFlattened());
        assertEquals(Set.of(NOTHING, Ontologies.type("Chimera")), reasoner.getUnsatisfiableClasses().getEntities());
        assertEquals(Set.of(THING), reasoner.getTopClassNode().getEntities());
        assertFalse(reasoner.isSatisfiable(Ontologies.type("Chimera")));
        assertTrue(reasoner.isSatisfiable(Ontologies.type("Dog")));
        assertFalse(reasoner.isSatisfiable(FACTORY.getOWLObjectIntersectionOf(classes("Puppy", "Cat"))));
        assertEquals(classes("Cat"), reasoner.getDisjointClasses(Ontologies.type("Puppy")).getFlattened().stream()
            .filter(type -> type.equals(Ontologies.type("Cat"))).collect(Collectors.toSet()));
        OWLClassExpression dogOwner =
            FACTORY.getOWLObjectSomeValuesFrom(Ontologies.role("owns"), Ontologies.type("Dog"));
        assertEquals(classes("Owner"), reasoner.getSuperClasses(dogOwner, true).getFlattened());
        assertEquals(Set.of(NOTHING, Ontologies.type("Chimera")),
            reasoner.getSubClasses(dogOwner, true).getFlattened());
        assertEquals(Set.of(), reasoner.getEquivalentClasses(dogOwner).getEntities());
        OWLClassExpression animalOwner =
            FACTORY.getOWLObjectSomeValuesFrom(Ontologies.role("owns"), Ontologies.type("Animal"));
        assertEquals(classes("Owner"), reasoner.getEquivalentClasses(animalOwner).getEntities());
        assertEquals(classes("Animal"),
            reasoner.getDataPropertyDomains(FACTORY.getOWLDataProperty(Ontologies.role("age").getIRI()), true)
                .getFlattened());
        assertTrue(reasoner.getObjectPropertyDomains(Ontologies.role("breeds"), true).isTopSingleton());
    }

    @Test
    public void individualsByHand() {
        JezundwaReasoner reasoner = Called.reasoner(Ontologies.read(ANIMALS));
        OWLNamedIndividual rex = Ontologies.individual("rex");
        OWLNamedIndividual ann = Ontologies.individual("ann");
        OWLNamedIndividual anna = Ontologies.individual("anna");
        assertEquals(classes("Puppy"), reasoner.getTypes(rex, true).getFlattened());
        assertEquals(classes("Owner"), reasoner.getTypes(anna, true).getFlattened());
        assertEquals(Set.of(rex), reasoner.getInstances(Ontologies.type("Dog"), false).getFlattened());
        assertEquals(Set.of(), reasoner.getInstances(Ontologies.type("Dog"), true).getFlattened());
        assertEquals(Set.of(ann, anna), reasoner.getInstances(
            FACTORY.getOWLObjectSomeValuesFrom(Ontologies.role("has"), Ontologies.type("Dog")), false).getFlattened());
        assertEquals(Set.of(ann, anna), reasoner.getSameIndividuals(ann).getEntities());
        assertEquals(Set.of(Ontologies.individual("tom")), reasoner.getDifferentIndividuals(rex).getFlattened());
        assertEquals(Set.of(rex), reasoner.getObjectPropertyValues(anna, Ontologies.role("has")).getFlattened());
        assertEquals(Set.of(ann, anna),
            reasoner.getObjectPropertyValues(rex, Ontologies.role("has").getInverseProperty()).getFlattened());
        assertEquals(1, reasoner.getDataPropertyValues(rex,
            FACTORY.getOWLDataProperty(Ontologies.role("number").getIRI())).size());
        JezundwaReasoner bySame = new JezundwaReasonerFactory().createReasoner(Ontologies.read(ANIMALS),
            Called.configuration().withIndividuals(IndividualNodeSetPolicy.BY_SAME_AS));
        assertEquals(1, bySame.getInstances(Ontologies.type("Owner"), false).getNodes().size());
        assertEquals(2, reasoner.getInstances(Ontologies.type("Owner"), false).getNodes().size());
    }

    @Test
    public void propertiesAsTheyAreTold() {
        JezundwaReasoner reasoner = Called.reasoner(Ontologies.read(ANIMALS));
        OWLObjectProperty owns = Ontologies.role("owns");
        OWLObjectProperty has = Ontologies.role("has");
        assertEquals(Set.of(owns, Ontologies.role("possesses"), Ontologies.role("isOwnedBy").getInverseProperty()),
            new HashSet<>(reasoner.getEquivalentObjectProperties(owns).getEntities()));
        assertTrue(reasoner.getSuperObjectProperties(Ontologies.role("breeds"), true).containsEntity(owns));
        assertFalse(reasoner.getSuperObjectProperties(Ontologies.role("breeds"), true).containsEntity(has));
        assertTrue(reasoner.getSuperObjectProperties(Ontologies.role("breeds"), false).containsEntity(has));
        assertTrue(reasoner.getSubObjectProperties(has, true).containsEntity(owns));
        assertTrue(reasoner.getInverseObjectProperties(owns).contains(Ontologies.role("isOwnedBy")));
        assertTrue(reasoner.getDisjointObjectProperties(Ontologies.role("breeds"))
            .containsEntity(Ontologies.role("lacks")));
        assertTrue(reasoner.getTopObjectPropertyNode().isTopNode());
        assertTrue(reasoner.getBottomObjectPropertyNode().isBottomNode());
        assertTrue(reasoner.getSubDataProperties(FACTORY.getOWLDataProperty(Ontologies.role("number").getIRI()), true)
            .containsEntity(FACTORY.getOWLDataProperty(Ontologies.role("age").getIRI())));
        assertTrue(reasoner.isPrecomputed(InferenceType.OBJECT_PROPERTY_HIERARCHY));
        assertFalse(reasoner.isPrecomputed(InferenceType.CLASS_HIERARCHY));
        reasoner.precomputeInferences(InferenceType.CLASS_HIERARCHY);
        assertTrue(reasoner.isPrecomputed(InferenceType.CLASS_HIERARCHY));
    }

    @Test
    public void namesThatAreUnknown() {
        JezundwaReasoner allowing = Called.reasoner(Ontologies.read(ANIMALS));
        OWLClass unknown = Ontologies.type("Unknown");
        assertTrue(allowing.isSatisfiable(unknown));
        assertEquals(Set.of(THING), allowing.getSuperClasses(unknown, true).getFlattened());
        assertTrue(allowing.getSubClasses(unknown, true).isBottomSingleton());
        assertEquals(Set.of(unknown), allowing.getEquivalentClasses(unknown).getEntities());
        assertTrue(allowing.getInstances(unknown, false).isEmpty());
        assertTrue(allowing.getTypes(Ontologies.individual("nobody"), true).isTopSingleton());
        JezundwaReasoner refusing = new JezundwaReasonerFactory().createReasoner(Ontologies.read(ANIMALS),
            Called.configuration().withFreshEntities(FreshEntityPolicy.DISALLOW));
        assertThrows(FreshEntitiesException.class, () -> refusing.isSatisfiable(unknown));
        assertThrows(FreshEntitiesException.class,
            () -> refusing.isEntailed(Ontologies.axiom("SubClassOf(:Unknown :Dog)")));
        assertThrows(FreshEntitiesException.class, () -> refusing.getTypes(Ontologies.individual("nobody"), true));
        assertTrue(refusing.isSatisfiable(Ontologies.type("Dog")));
    }

    @Test
    public void callsAgainstIsEntailed() {
        Called.requireLongForm();
        int compared = 0;
        for (int seed = 0; seed < Called.many(2, 300); seed++) {
            Ontologies.Maker maker = new Ontologies.Maker(3_000 + seed, seed % 2 == 1);
            OWLOntology ontology = maker.ontology();
            JezundwaReasoner reasoner = Called.reasoner(ontology);
            if (reasoner.isConsistent()) {
                compared += new Comparison(reasoner, ontology, "seed " + seed).run(maker.expression(2));
            }
        }
        System.out.println("compared with isEntailed: " + compared + " calls");
        assertTrue(compared > 10);
    }

    /** The calls of one reasoner, each against what is entailed of each name. */
    private static final class Comparison {
        private final JezundwaReasoner reasoner;
        private final String message;
        private final List<OWLClass> types;
        private final List<OWLNamedIndividual> individuals;
        private final List<OWLObjectProperty> roles;
        private int calls;

        Comparison(JezundwaReasoner reasoner, OWLOntology ontology, String message) {
            this.reasoner = reasoner;
            this.message = message;
            types = new ArrayList<>(new TreeSet<>(ontology.getClassesInSignature(Imports.INCLUDED)));
            types.removeAll(List.of(THING, NOTHING));
            types.addAll(List.of(THING, NOTHING));
            individuals = new ArrayList<>(new TreeSet<>(ontology.getIndividualsInSignature(Imports.INCLUDED)));
            roles = new ArrayList<>(new TreeSet<>(ontology.getObjectPropertiesInSignature(Imports.INCLUDED)));
        }

        int run(OWLClassExpression expression) {
            for (OWLClassExpression type : List.of(types.get(0), types.get(1), expression)) {
                compareClasses(type);
            }
            compareRoles(roles.get(0));
            for (OWLNamedIndividual individual : individuals.subList(0, Math.min(2, individuals.size()))) {
                compareIndividual(individual);
            }
            if (!individuals.isEmpty()) {
                expect("instances", reasoner.getInstances(expression, false).getFlattened(), individuals,
                    one -> FACTORY.getOWLClassAssertionAxiom(expression, one));
                expect("instances", reasoner.getInstances(types.get(0), false).getFlattened(), individuals,
                    one -> FACTORY.getOWLClassAssertionAxiom(types.get(0), one));
            }
            return calls;
        }

        private <E> Set<E> expect(String call, Set<E> answer, List<E> all, Function<E, OWLAxiom> axiom) {
            List<Boolean> entailed = Called.entailed(reasoner, all.stream().map(axiom).toList());
            Set<E> expected = IntStream.range(0, all.size()).filter(entailed::get).mapToObj(all::get)
                .collect(Collectors.toSet());
            assertEquals(message + " " + call, expected, new HashSet<>(answer));
            calls++;
            return expected;
        }

        private void compareClasses(OWLClassExpression type) {
            Set<OWLClass> equal = new HashSet<>(reasoner.getEquivalentClasses(type).getEntities());
            Set<OWLClass> above = new HashSet<>(reasoner.getSuperClasses(type, false).getFlattened());
            Set<OWLClass> below = new HashSet<>(reasoner.getSubClasses(type, false).getFlattened());
            above.addAll(equal);
            below.addAll(equal);
            String of = " of " + type;
            expect("superclasses" + of, above, types, other -> FACTORY.getOWLSubClassOfAxiom(type, other));
            expect("subclasses" + of, below, types, other -> FACTORY.getOWLSubClassOfAxiom(other, type));
            expect("disjoint classes" + of, reasoner.getDisjointClasses(type).getFlattened(), types,
                other -> FACTORY.getOWLSubClassOfAxiom(FACTORY.getOWLObjectIntersectionOf(type, other), NOTHING));
            assertEquals(message, !below.contains(NOTHING) || !equal.contains(NOTHING), reasoner.isSatisfiable(type));
            for (Node<OWLClass> parent : reasoner.getSuperClasses(type, true)) {
                assertFalse(message + of, reasoner.getSuperClasses(type, true).getNodes().stream()
                    .anyMatch(other -> !other.equals(parent) && reasoner.getSuperClasses(
                        other.getRepresentativeElement(), false).containsEntity(parent.getRepresentativeElement())));
            }
        }

        private void compareRoles(OWLObjectProperty role) {
            expect("domains", reasoner.getObjectPropertyDomains(role, false).getFlattened(), types,
                type -> FACTORY.getOWLObjectPropertyDomainAxiom(role, type));
            expect("ranges", reasoner.getObjectPropertyRanges(role, false).getFlattened(), types,
                type -> FACTORY.getOWLObjectPropertyRangeAxiom(role, type));
        }

        private void compareIndividual(OWLNamedIndividual individual) {
            expect("types", reasoner.getTypes(individual, false).getFlattened(), types,
                type -> FACTORY.getOWLClassAssertionAxiom(type, individual));
            List<OWLNamedIndividual> others = new ArrayList<>(individuals);
            others.remove(individual);
            Set<OWLNamedIndividual> same = new HashSet<>(reasoner.getSameIndividuals(individual).getEntities());
            assertTrue(same.remove(individual));
            expect("same", same, others, other -> FACTORY.getOWLSameIndividualAxiom(individual, other));
            expect("different", reasoner.getDifferentIndividuals(individual).getFlattened(), others,
                other -> FACTORY.getOWLDifferentIndividualsAxiom(individual, other));
            for (OWLObjectPropertyExpression role : List.of(roles.get(2), roles.get(0).getInverseProperty())) {
                expect("values of " + role, reasoner.getObjectPropertyValues(individual, role).getFlattened(),
                    individuals, other -> FACTORY.getOWLObjectPropertyAssertionAxiom(role, individual, other));
            }
        }
    }

    @Test
    public void hierarchiesAsKoncludeWritesThem() {
        assumeTrue("konclude is not installed", Konclude.isHere());
        int compared = 0;
        for (int seed = 0; seed < Called.many(4, 300); seed++) {
            OWLOntology ontology = new Ontologies.Maker(7_000 + seed, seed % 2 == 1).ontology();
            try {
                compared += compareHierarchy("seed " + seed, ontology,
                    written(Konclude.classified(ontology), ontology.getClassesInSignature()));
            } catch (Konclude.NoAnswer crash) {
                continue;
            }
        }
        System.out.println("compared with Konclude's hierarchies: " + compared + " pairs of classes");
        assertTrue(compared > 0);
    }

    /** Konclude writes a hierarchy as axioms between names; what is below Nothing is below all, and all below Thing. */
    private static Closure<OWLClass> written(OWLOntology hierarchy, Set<OWLClass> types) {
        Closure<OWLClass> closure = new Closure<>();
        for (OWLClass type : types) {
            closure.addBelow(type, THING);
            closure.addBelow(NOTHING, type);
        }
        for (OWLAxiom axiom : hierarchy.getLogicalAxioms()) {
            if (axiom instanceof OWLSubClassOfAxiom inclusion) {
                closure.addBelow(inclusion.getSubClass().asOWLClass(), inclusion.getSuperClass().asOWLClass());
            } else if (axiom instanceof OWLEquivalentClassesAxiom equivalence) {
                closure.addEqual(
                    equivalence.getClassExpressions().stream().map(OWLClassExpression::asOWLClass).toList());
            }
        }
        return closure;
    }

    private static int compareHierarchy(String message, OWLOntology ontology, Closure<OWLClass> konclude) {
        JezundwaReasoner reasoner = Called.reasoner(ontology);
        Judge judge = new Judge(ontology, reasoner);
        boolean isInconsistent = konclude.isBelow(THING, NOTHING);
        judge.compare(message, Judge.inconsistency(), isInconsistent, !reasoner.isConsistent());
        if (isInconsistent || !reasoner.isConsistent()) {
            return 0;
        }
        Set<OWLClass> types = ontology.getClassesInSignature();
        for (OWLClass type : types) {
            Set<OWLClass> above = new HashSet<>(reasoner.getEquivalentClasses(type).getEntities());
            above.addAll(reasoner.getSuperClasses(type, false).getFlattened());
            for (OWLClass other : types) {
                judge.compare(message, FACTORY.getOWLSubClassOfAxiom(type, other), konclude.isBelow(type, other),
                    above.contains(other));
            }
        }
        return types.size() * types.size();
    }

    /** Of a consistent ontology the hierarchy is the same with its assertions and without them. */
    @Test
    public void hierarchiesWithAndWithoutAssertions() {
        int compared = 0;
        for (int seed = 0; compared < Called.many(4, 150); seed++) {
            JezundwaReasoner reasoner = Called.reasoner(new Ontologies.Maker(4_000 + seed, true).ontology());
            if (!reasoner.isConsistent()) {
                continue;
            }
            reasoner.operation(current -> {
                Names names = current.document().names();
                Hierarchy<OWLClass> with =
                    TaxonomyReader.read(current.asker().onDocument("classify", "").lines(), names, FACTORY);
                Hierarchy<OWLClass> without =
                    TaxonomyReader.read(current.asker().onTerms("classify", "").lines(), names, FACTORY);
                assertEquals(with.allNodes(), without.allNodes());
                with.allNodes().forEach(node -> assertEquals(with.parents(node), without.parents(node)));
                return null;
            });
            compared++;
        }
    }
}
