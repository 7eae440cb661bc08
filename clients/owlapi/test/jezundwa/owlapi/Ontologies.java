package jezundwa.owlapi;

import java.util.ArrayList;
import java.util.HashSet;
import java.util.List;
import java.util.Random;
import java.util.Set;
import org.semanticweb.owlapi.apibinding.OWLManager;
import org.semanticweb.owlapi.io.StringDocumentSource;
import org.semanticweb.owlapi.model.IRI;
import org.semanticweb.owlapi.model.OWLAxiom;
import org.semanticweb.owlapi.model.OWLClass;
import org.semanticweb.owlapi.model.OWLClassExpression;
import org.semanticweb.owlapi.model.OWLDataFactory;
import org.semanticweb.owlapi.model.OWLNamedIndividual;
import org.semanticweb.owlapi.model.OWLObjectProperty;
import org.semanticweb.owlapi.model.OWLOntology;
import org.semanticweb.owlapi.model.OWLOntologyCreationException;

/** Ontologies for tests: of a text, and random ones of a seed. */
final class Ontologies {
    static final String PREFIX = "http://example.org/test#";
    private static final OWLDataFactory FACTORY = OWLManager.getOWLDataFactory();

    private Ontologies() {}

    static OWLClass type(String name) {
        return FACTORY.getOWLClass(IRI.create(PREFIX + name));
    }

    static OWLObjectProperty role(String name) {
        return FACTORY.getOWLObjectProperty(IRI.create(PREFIX + name));
    }

    static OWLNamedIndividual individual(String name) {
        return FACTORY.getOWLNamedIndividual(IRI.create(PREFIX + name));
    }

    static OWLOntology read(String axioms) {
        String text = "Prefix(:=<" + PREFIX + ">)\nPrefix(owl:=<http://www.w3.org/2002/07/owl#>)\n"
            + "Prefix(xsd:=<http://www.w3.org/2001/XMLSchema#>)\nOntology(\n" + axioms + "\n)\n";
        try {
            return OWLManager.createOWLOntologyManager()
                .loadOntologyFromOntologyDocument(new StringDocumentSource(text));
        } catch (OWLOntologyCreationException fault) {
            throw new IllegalArgumentException(text, fault);
        }
    }

    /** The axiom of a text. */
    static OWLAxiom axiom(String text) {
        Set<? extends OWLAxiom> read = read(text).getLogicalAxioms();
        if (read.size() != 1) {
            throw new IllegalArgumentException(text);
        }
        return read.iterator().next();
    }

    static OWLOntology of(Set<OWLAxiom> axioms) {
        try {
            return OWLManager.createOWLOntologyManager().createOntology(axioms);
        } catch (OWLOntologyCreationException fault) {
            throw new IllegalStateException(fault);
        }
    }

    /** Small random ontologies, and random axioms to ask about, over a few names. */
    static final class Maker {
        private static final int CLASSES = 5;
        private static final int ROLES = 3;
        private static final int INDIVIDUALS = 4;

        private final Random random;
        private final boolean hasIndividuals;

        Maker(long seed, boolean hasIndividuals) {
            this.random = new Random(seed);
            this.hasIndividuals = hasIndividuals;
        }

        OWLOntology ontology() {
            Set<OWLAxiom> axioms = new HashSet<>();
            int count = 6 + random.nextInt(6);
            while (axioms.size() < count) {
                axioms.add(hasIndividuals && random.nextInt(5) < 3 ? assertion() : term());
            }
            for (int at = 0; at < CLASSES; at++) {
                axioms.add(FACTORY.getOWLDeclarationAxiom(type("A" + at)));
            }
            for (int at = 0; at < ROLES; at++) {
                axioms.add(FACTORY.getOWLDeclarationAxiom(role("R" + at)));
            }
            return of(axioms);
        }

        /** An axiom of each kind that can be asked about. */
        List<OWLAxiom> questions() {
            List<OWLAxiom> questions = new ArrayList<>();
            for (int at = 0; at < 6; at++) {
                questions.add(term());
            }
            OWLObjectProperty one = anyRole();
            OWLObjectProperty other = anyRole();
            questions.add(FACTORY.getOWLEquivalentClassesAxiom(expression(1), expression(1), named()));
            questions.add(FACTORY.getOWLDisjointClassesAxiom(expression(1), named(), expression(1)));
            questions.add(FACTORY.getOWLObjectPropertyDomainAxiom(one, expression(1)));
            questions.add(FACTORY.getOWLObjectPropertyRangeAxiom(other, expression(1)));
            questions.add(FACTORY.getOWLFunctionalObjectPropertyAxiom(one));
            questions.add(FACTORY.getOWLInverseFunctionalObjectPropertyAxiom(one));
            questions.add(FACTORY.getOWLTransitiveObjectPropertyAxiom(other));
            questions.add(FACTORY.getOWLSymmetricObjectPropertyAxiom(one));
            questions.add(FACTORY.getOWLAsymmetricObjectPropertyAxiom(other));
            questions.add(FACTORY.getOWLReflexiveObjectPropertyAxiom(one));
            questions.add(FACTORY.getOWLIrreflexiveObjectPropertyAxiom(other));
            questions.add(FACTORY.getOWLSubObjectPropertyOfAxiom(one, other));
            questions.add(FACTORY.getOWLEquivalentObjectPropertiesAxiom(one, other));
            questions.add(FACTORY.getOWLDisjointObjectPropertiesAxiom(one, role("R0")));
            questions.add(FACTORY.getOWLInverseObjectPropertiesAxiom(one, other));
            questions.add(FACTORY.getOWLSubPropertyChainOfAxiom(List.of(one, other), role("R2")));
            if (hasIndividuals) {
                for (int at = 0; at < 4; at++) {
                    questions.add(assertion());
                }
                questions.add(FACTORY.getOWLObjectPropertyAssertionAxiom(role("R2"), anyone(), anyone()));
                questions.add(FACTORY.getOWLSameIndividualAxiom(individual("i0"), individual("i1")));
                questions.add(FACTORY.getOWLDifferentIndividualsAxiom(individual("i0"), individual("i1")));
                questions.add(FACTORY.getOWLDifferentIndividualsAxiom(individual("i0"), individual("i1"),
                    individual("i2")));
                questions.add(FACTORY.getOWLNegativeObjectPropertyAssertionAxiom(anyRole(), anyone(), anyone()));
            }
            return questions;
        }

        private OWLClass named() {
            return type("A" + random.nextInt(CLASSES));
        }

        /** R2 may be transitive, so that only the others are counted. */
        private OWLObjectProperty anyRole() {
            return role("R" + random.nextInt(ROLES));
        }

        private OWLObjectProperty countedRole() {
            return role("R" + random.nextInt(ROLES - 1));
        }

        private OWLNamedIndividual anyone() {
            return individual("i" + random.nextInt(INDIVIDUALS));
        }

        OWLClassExpression expression(int depth) {
            if (depth == 0 || random.nextInt(3) == 0) {
                return named();
            }
            OWLClassExpression part = expression(depth - 1);
            return switch (random.nextInt(8)) {
                case 0 -> FACTORY.getOWLObjectIntersectionOf(part, named());
                case 1 -> FACTORY.getOWLObjectUnionOf(part, named());
                case 2 -> FACTORY.getOWLObjectComplementOf(part);
                case 3 -> FACTORY.getOWLObjectAllValuesFrom(anyRole(), part);
                case 4 -> FACTORY.getOWLObjectMinCardinality(1 + random.nextInt(2), countedRole(), part);
                case 5 -> FACTORY.getOWLObjectMaxCardinality(random.nextInt(2), countedRole(), part);
                default -> FACTORY.getOWLObjectSomeValuesFrom(anyRole(), part);
            };
        }

        private OWLAxiom term() {
            return switch (random.nextInt(14)) {
                case 0 -> FACTORY.getOWLEquivalentClassesAxiom(named(), expression(2));
                case 1 -> FACTORY.getOWLDisjointClassesAxiom(named(), expression(1));
                case 2 -> FACTORY.getOWLObjectPropertyDomainAxiom(anyRole(), expression(1));
                case 3 -> FACTORY.getOWLObjectPropertyRangeAxiom(anyRole(), expression(1));
                case 4 -> FACTORY.getOWLFunctionalObjectPropertyAxiom(countedRole());
                case 5 -> FACTORY.getOWLTransitiveObjectPropertyAxiom(role("R2"));
                case 6 -> FACTORY.getOWLSubObjectPropertyOfAxiom(countedRole(), role("R2"));
                case 7 -> FACTORY.getOWLDisjointUnionAxiom(type("A0"), Set.of(type("A1"), type("A2")));
                default -> FACTORY.getOWLSubClassOfAxiom(random.nextInt(3) == 0 ? expression(1) : named(),
                    expression(2));
            };
        }

        private OWLAxiom assertion() {
            return switch (random.nextInt(8)) {
                case 0, 1, 2 -> FACTORY.getOWLClassAssertionAxiom(expression(1), anyone());
                case 3 -> FACTORY.getOWLSameIndividualAxiom(individual("i2"), individual("i3"));
                case 4 -> FACTORY.getOWLDifferentIndividualsAxiom(individual("i0"), individual("i3"));
                case 5 -> FACTORY.getOWLNegativeObjectPropertyAssertionAxiom(anyRole(), anyone(), anyone());
                default -> FACTORY.getOWLObjectPropertyAssertionAxiom(anyRole(), anyone(), anyone());
            };
        }
    }
}
