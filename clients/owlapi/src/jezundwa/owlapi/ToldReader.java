package jezundwa.owlapi;

import java.util.ArrayList;
import java.util.Collection;
import java.util.List;
import java.util.Set;
import org.semanticweb.owlapi.model.OWLAsymmetricObjectPropertyAxiom;
import org.semanticweb.owlapi.model.OWLAxiom;
import org.semanticweb.owlapi.model.OWLDataFactory;
import org.semanticweb.owlapi.model.OWLDataProperty;
import org.semanticweb.owlapi.model.OWLDataPropertyExpression;
import org.semanticweb.owlapi.model.OWLDisjointDataPropertiesAxiom;
import org.semanticweb.owlapi.model.OWLDisjointObjectPropertiesAxiom;
import org.semanticweb.owlapi.model.OWLEquivalentDataPropertiesAxiom;
import org.semanticweb.owlapi.model.OWLEquivalentObjectPropertiesAxiom;
import org.semanticweb.owlapi.model.OWLInverseObjectPropertiesAxiom;
import org.semanticweb.owlapi.model.OWLObjectProperty;
import org.semanticweb.owlapi.model.OWLObjectPropertyExpression;
import org.semanticweb.owlapi.model.OWLOntology;
import org.semanticweb.owlapi.model.OWLSubDataPropertyOfAxiom;
import org.semanticweb.owlapi.model.OWLSubObjectPropertyOfAxiom;
import org.semanticweb.owlapi.model.OWLSymmetricObjectPropertyAxiom;
import org.semanticweb.owlapi.model.parameters.Imports;
import org.semanticweb.owlapi.reasoner.Node;
import org.semanticweb.owlapi.reasoner.impl.OWLDataPropertyNode;
import org.semanticweb.owlapi.reasoner.impl.OWLObjectPropertyNode;

/** What the axioms of an ontology say of its properties. */
final class ToldReader {
    private ToldReader() {}

    /** Object properties, with their inverses where any axiom speaks of an inverse. */
    static ToldProperties<OWLObjectPropertyExpression> objectProperties(OWLOntology root,
            Collection<OWLAxiom> axioms) {
        OWLDataFactory factory = root.getOWLOntologyManager().getOWLDataFactory();
        Node<OWLObjectPropertyExpression> top = new OWLObjectPropertyNode(factory.getOWLTopObjectProperty());
        Node<OWLObjectPropertyExpression> bottom = new OWLObjectPropertyNode(factory.getOWLBottomObjectProperty());
        ToldProperties<OWLObjectPropertyExpression> told =
            new ToldProperties<>(top, bottom, members -> new OWLObjectPropertyNode(members));
        boolean hasInverses = axioms.stream().anyMatch(ToldReader::speaksOfInverses);
        for (OWLObjectProperty role : root.getObjectPropertiesInSignature(Imports.INCLUDED)) {
            told.add(role);
            if (hasInverses && !role.isBuiltIn()) {
                told.add(role.getInverseProperty());
            }
        }
        axioms.forEach(axiom -> read(axiom, told, hasInverses));
        return told;
    }

    private static boolean speaksOfInverses(OWLAxiom axiom) {
        return axiom instanceof OWLInverseObjectPropertiesAxiom || axiom instanceof OWLSymmetricObjectPropertyAxiom
            || axiom instanceof OWLAsymmetricObjectPropertyAxiom
            || axiom instanceof OWLSubObjectPropertyOfAxiom inclusion
                && (inclusion.getSubProperty().isAnonymous() || inclusion.getSuperProperty().isAnonymous())
            || axiom instanceof OWLEquivalentObjectPropertiesAxiom equivalence
                && equivalence.getProperties().stream().anyMatch(OWLObjectPropertyExpression::isAnonymous)
            || axiom instanceof OWLDisjointObjectPropertiesAxiom disjointness
                && disjointness.getProperties().stream().anyMatch(OWLObjectPropertyExpression::isAnonymous);
    }

    /** What an axiom says of roles, and with inverses what follows of these from it alone. */
    private static void read(OWLAxiom axiom, ToldProperties<OWLObjectPropertyExpression> told, boolean hasInverses) {
        if (axiom instanceof OWLSubObjectPropertyOfAxiom inclusion) {
            told.addBelow(inclusion.getSubProperty(), inclusion.getSuperProperty());
            if (hasInverses) {
                told.addBelow(inclusion.getSubProperty().getInverseProperty(),
                    inclusion.getSuperProperty().getInverseProperty());
            }
        } else if (axiom instanceof OWLEquivalentObjectPropertiesAxiom equivalence) {
            told.addEqual(equivalence.getProperties());
            if (hasInverses) {
                told.addEqual(inverses(equivalence.getProperties()));
            }
        } else if (axiom instanceof OWLInverseObjectPropertiesAxiom inverse) {
            told.addEqual(List.of(inverse.getFirstProperty(), inverse.getSecondProperty().getInverseProperty()));
            told.addEqual(List.of(inverse.getSecondProperty(), inverse.getFirstProperty().getInverseProperty()));
        } else if (axiom instanceof OWLSymmetricObjectPropertyAxiom symmetric) {
            told.addEqual(List.of(symmetric.getProperty(), symmetric.getProperty().getInverseProperty()));
        } else if (axiom instanceof OWLAsymmetricObjectPropertyAxiom asymmetric) {
            told.addApart(List.of(asymmetric.getProperty(), asymmetric.getProperty().getInverseProperty()));
        } else if (axiom instanceof OWLDisjointObjectPropertiesAxiom disjointness) {
            told.addApart(disjointness.getProperties());
            if (hasInverses) {
                told.addApart(inverses(disjointness.getProperties()));
            }
        }
    }

    private static List<OWLObjectPropertyExpression> inverses(Set<OWLObjectPropertyExpression> roles) {
        return new ArrayList<>(roles.stream().map(OWLObjectPropertyExpression::getInverseProperty).toList());
    }

    static ToldProperties<OWLDataProperty> dataProperties(OWLOntology root, Collection<OWLAxiom> axioms) {
        OWLDataFactory factory = root.getOWLOntologyManager().getOWLDataFactory();
        ToldProperties<OWLDataProperty> told = new ToldProperties<>(
            new OWLDataPropertyNode(factory.getOWLTopDataProperty()),
            new OWLDataPropertyNode(factory.getOWLBottomDataProperty()), members -> new OWLDataPropertyNode(members));
        root.getDataPropertiesInSignature(Imports.INCLUDED).forEach(told::add);
        for (OWLAxiom axiom : axioms) {
            if (axiom instanceof OWLSubDataPropertyOfAxiom inclusion) {
                told.addBelow(inclusion.getSubProperty().asOWLDataProperty(),
                    inclusion.getSuperProperty().asOWLDataProperty());
            } else if (axiom instanceof OWLEquivalentDataPropertiesAxiom equivalence) {
                told.addEqual(named(equivalence.getProperties()));
            } else if (axiom instanceof OWLDisjointDataPropertiesAxiom disjointness) {
                told.addApart(named(disjointness.getProperties()));
            }
        }
        return told;
    }

    private static List<OWLDataProperty> named(Set<OWLDataPropertyExpression> properties) {
        return properties.stream().map(OWLDataPropertyExpression::asOWLDataProperty).toList();
    }
}
