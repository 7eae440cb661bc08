package jezundwa.owlapi;

import java.util.ArrayList;
import java.util.HashSet;
import java.util.List;
import java.util.Set;
import org.semanticweb.owlapi.model.OWLAxiom;
import org.semanticweb.owlapi.model.OWLClass;
import org.semanticweb.owlapi.model.OWLClassExpression;
import org.semanticweb.owlapi.model.OWLDataFactory;
import org.semanticweb.owlapi.model.OWLDisjointUnionAxiom;
import org.semanticweb.owlapi.model.OWLEquivalentObjectPropertiesAxiom;
import org.semanticweb.owlapi.model.OWLFunctionalObjectPropertyAxiom;
import org.semanticweb.owlapi.model.OWLIndividual;
import org.semanticweb.owlapi.model.OWLInverseFunctionalObjectPropertyAxiom;
import org.semanticweb.owlapi.model.OWLNaryClassAxiom;
import org.semanticweb.owlapi.model.OWLNaryIndividualAxiom;
import org.semanticweb.owlapi.model.OWLNegativeObjectPropertyAssertionAxiom;
import org.semanticweb.owlapi.model.OWLObjectPropertyAssertionAxiom;
import org.semanticweb.owlapi.model.OWLObjectPropertyDomainAxiom;
import org.semanticweb.owlapi.model.OWLObjectPropertyExpression;
import org.semanticweb.owlapi.model.OWLObjectPropertyRangeAxiom;
import org.semanticweb.owlapi.model.OWLSubObjectPropertyOfAxiom;
import org.semanticweb.owlapi.model.OWLSubPropertyChainOfAxiom;
import org.semanticweb.owlapi.model.OWLTransitiveObjectPropertyAxiom;

/**
 * Axioms that the program's language has in another form. What is answered says exactly as much as the axiom, of all
 * names but the helpers; what has no such form is answered as it is.
 */
final class Rewriting {
    private final OWLDataFactory factory;
    private final Helpers helpers;
    private int targets;

    Rewriting(OWLDataFactory factory, Helpers helpers) {
        this.factory = factory;
        this.helpers = helpers;
    }

    List<OWLAxiom> of(OWLAxiom axiom) {
        if (axiom instanceof OWLSubObjectPropertyOfAxiom inclusion) {
            return inclusion(inclusion);
        }
        if (axiom instanceof OWLSubPropertyChainOfAxiom chain) {
            return chain(chain);
        }
        if (axiom instanceof OWLEquivalentObjectPropertiesAxiom equivalence) {
            return equivalence(equivalence);
        }
        if (axiom instanceof OWLTransitiveObjectPropertyAxiom transitive) {
            return List.of(factory.getOWLTransitiveObjectPropertyAxiom(transitive.getProperty().getNamedProperty()));
        }
        if (axiom instanceof OWLInverseFunctionalObjectPropertyAxiom inverseFunctional) {
            return inverseFunctional(inverseFunctional);
        }
        if (axiom instanceof OWLFunctionalObjectPropertyAxiom functional) {
            return functional(functional);
        }
        if (axiom instanceof OWLObjectPropertyDomainAxiom domain) {
            return domain(domain);
        }
        if (axiom instanceof OWLObjectPropertyRangeAxiom range) {
            return range(range);
        }
        if (axiom instanceof OWLObjectPropertyAssertionAxiom assertion) {
            return List.of(assertion.getSimplified());
        }
        if (axiom instanceof OWLNegativeObjectPropertyAssertionAxiom assertion) {
            return negativeAssertion(assertion);
        }
        if (axiom instanceof OWLDisjointUnionAxiom union) {
            return disjointUnion(union);
        }
        if (axiom instanceof OWLNaryClassAxiom classes) {
            return classes.getClassExpressions().size() < 2 ? List.of() : List.of(axiom);
        }
        if (axiom instanceof OWLNaryIndividualAxiom individuals) {
            return individuals.getIndividuals().size() < 2 ? List.of() : List.of(axiom);
        }
        return List.of(axiom);
    }

    private static boolean isInverse(OWLObjectPropertyExpression role) {
        return role.isAnonymous();
    }

    /** All is below the top role, and the bottom role below all; what holds of two inverse roles holds of the roles. */
    private List<OWLAxiom> inclusion(OWLSubObjectPropertyOfAxiom axiom) {
        OWLObjectPropertyExpression below = axiom.getSubProperty();
        OWLObjectPropertyExpression above = axiom.getSuperProperty();
        if (above.isOWLTopObjectProperty() || below.isOWLBottomObjectProperty()) {
            return List.of();
        }
        if (isInverse(below) && isInverse(above)) {
            return List.of(factory.getOWLSubObjectPropertyOfAxiom(below.getNamedProperty(), above.getNamedProperty()));
        }
        return List.of(axiom);
    }

    /** That the chain r r is in r is what transitive means; so for inverse roles. */
    private List<OWLAxiom> chain(OWLSubPropertyChainOfAxiom axiom) {
        List<OWLObjectPropertyExpression> chain = axiom.getPropertyChain();
        OWLObjectPropertyExpression above = axiom.getSuperProperty();
        if (chain.size() == 2 && chain.get(0).equals(above) && chain.get(1).equals(above)) {
            return List.of(factory.getOWLTransitiveObjectPropertyAxiom(above.getNamedProperty()));
        }
        return List.of(axiom);
    }

    /** Two roles are equal just where their inverses are. */
    private List<OWLAxiom> equivalence(OWLEquivalentObjectPropertiesAxiom axiom) {
        Set<OWLObjectPropertyExpression> roles = axiom.getProperties();
        if (roles.stream().allMatch(Rewriting::isInverse)) {
            Set<OWLObjectPropertyExpression> named = new HashSet<>();
            roles.forEach(role -> named.add(role.getNamedProperty()));
            roles = named;
        }
        return roles.size() < 2 ? List.of() : List.of(factory.getOWLEquivalentObjectPropertiesAxiom(roles));
    }

    private List<OWLAxiom> inverseFunctional(OWLInverseFunctionalObjectPropertyAxiom axiom) {
        return List.of(isInverse(axiom.getProperty())
            ? factory.getOWLFunctionalObjectPropertyAxiom(axiom.getProperty().getNamedProperty()) : axiom);
    }

    private List<OWLAxiom> functional(OWLFunctionalObjectPropertyAxiom axiom) {
        return List.of(isInverse(axiom.getProperty())
            ? factory.getOWLInverseFunctionalObjectPropertyAxiom(axiom.getProperty().getNamedProperty()) : axiom);
    }

    /** What an inverse role starts from is what the role leads to. */
    private List<OWLAxiom> domain(OWLObjectPropertyDomainAxiom axiom) {
        return List.of(isInverse(axiom.getProperty())
            ? factory.getOWLObjectPropertyRangeAxiom(axiom.getProperty().getNamedProperty(), axiom.getDomain())
            : axiom);
    }

    private List<OWLAxiom> range(OWLObjectPropertyRangeAxiom axiom) {
        return List.of(isInverse(axiom.getProperty())
            ? factory.getOWLObjectPropertyDomainAxiom(axiom.getProperty().getNamedProperty(), axiom.getRange())
            : axiom);
    }

    /** a is not related to b just where some class has b in it and nothing that a is related to: {b} itself is one. */
    private List<OWLAxiom> negativeAssertion(OWLNegativeObjectPropertyAssertionAxiom axiom) {
        boolean isTurned = isInverse(axiom.getProperty());
        OWLIndividual from = isTurned ? axiom.getObject() : axiom.getSubject();
        OWLIndividual to = isTurned ? axiom.getSubject() : axiom.getObject();
        OWLClass target = helpers.type(targets++);
        return List.of(factory.getOWLClassAssertionAxiom(target, to), factory.getOWLClassAssertionAxiom(
            factory.getOWLObjectAllValuesFrom(axiom.getProperty().getNamedProperty(),
                factory.getOWLObjectComplementOf(target)), from));
    }

    /** A disjoint union of fewer than two classes, or of Thing or Nothing, in the axioms that it abbreviates. */
    private List<OWLAxiom> disjointUnion(OWLDisjointUnionAxiom axiom) {
        if (axiom.getClassExpressions().size() > 1 && !axiom.getOWLClass().isBuiltIn()) {
            return List.of(axiom);
        }
        List<OWLAxiom> parts = new ArrayList<>();
        OWLClassExpression union = factory.getOWLObjectUnionOf(axiom.getClassExpressions());
        parts.add(factory.getOWLEquivalentClassesAxiom(axiom.getOWLClass(), union));
        if (axiom.getClassExpressions().size() > 1) {
            parts.add(factory.getOWLDisjointClassesAxiom(axiom.getClassExpressions()));
        }
        return parts;
    }
}
