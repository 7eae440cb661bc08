package jezundwa.owlapi;

import java.util.ArrayList;
import java.util.Collection;
import java.util.List;
import java.util.Set;
import org.semanticweb.owlapi.model.*;

/**
 * Of an axiom a class that can have a member just where the axiom can fail, with nominals and inverse roles, which the
 * program does not have: these reductions share nothing with those of the client.
 */
final class FailureClass implements OWLAxiomVisitorEx<OWLClassExpression> {
    private final OWLDataFactory factory;
    /** One thing of which nothing is known. */
    private final OWLClassExpression that;
    private final OWLClass some;

    FailureClass(OWLDataFactory factory, int number) {
        this.factory = factory;
        this.that = only(factory.getOWLNamedIndividual(IRI.create("urn:that#" + number)));
        this.some = factory.getOWLClass(IRI.create("urn:some#" + number));
    }

    private OWLClassExpression only(OWLIndividual individual) {
        return factory.getOWLObjectOneOf(individual);
    }

    private OWLClassExpression not(OWLClassExpression type) {
        return factory.getOWLObjectComplementOf(type);
    }

    private OWLClassExpression and(OWLClassExpression... types) {
        return factory.getOWLObjectIntersectionOf(types);
    }

    private OWLClassExpression or(Collection<OWLClassExpression> types) {
        return factory.getOWLObjectUnionOf(Set.copyOf(types));
    }

    private OWLClassExpression leadsTo(OWLObjectPropertyExpression role, OWLClassExpression type) {
        return factory.getOWLObjectSomeValuesFrom(role, type);
    }

    private OWLClassExpression inclusion(OWLClassExpression part, OWLClassExpression whole) {
        return and(part, not(whole));
    }

    private OWLClassExpression equality(List<OWLClassExpression> types) {
        List<OWLClassExpression> failures = new ArrayList<>();
        for (OWLClassExpression one : types) {
            types.forEach(other -> failures.add(inclusion(one, other)));
        }
        return or(failures);
    }

    private OWLClassExpression disjointness(List<OWLClassExpression> types) {
        List<OWLClassExpression> failures = new ArrayList<>(List.of(factory.getOWLNothing()));
        for (int one = 0; one < types.size(); one++) {
            for (int other = 0; other < one; other++) {
                failures.add(and(types.get(one), types.get(other)));
            }
        }
        return or(failures);
    }

    @Override
    public OWLClassExpression visit(OWLSubClassOfAxiom axiom) {
        return inclusion(axiom.getSubClass(), axiom.getSuperClass());
    }

    @Override
    public OWLClassExpression visit(OWLEquivalentClassesAxiom axiom) {
        return equality(axiom.getClassExpressionsAsList());
    }

    @Override
    public OWLClassExpression visit(OWLDisjointClassesAxiom axiom) {
        return disjointness(axiom.getClassExpressionsAsList());
    }

    @Override
    public OWLClassExpression visit(OWLDisjointUnionAxiom axiom) {
        List<OWLClassExpression> parts = new ArrayList<>(axiom.getClassExpressions());
        return or(List.of(disjointness(parts), equality(List.of(axiom.getOWLClass(), or(parts)))));
    }

    @Override
    public OWLClassExpression visit(OWLObjectPropertyDomainAxiom axiom) {
        return inclusion(leadsTo(axiom.getProperty(), factory.getOWLThing()), axiom.getDomain());
    }

    @Override
    public OWLClassExpression visit(OWLObjectPropertyRangeAxiom axiom) {
        return leadsTo(axiom.getProperty(), not(axiom.getRange()));
    }

    @Override
    public OWLClassExpression visit(OWLFunctionalObjectPropertyAxiom axiom) {
        return and(leadsTo(axiom.getProperty(), some), leadsTo(axiom.getProperty(), not(some)));
    }

    @Override
    public OWLClassExpression visit(OWLInverseFunctionalObjectPropertyAxiom axiom) {
        OWLObjectPropertyExpression back = axiom.getProperty().getInverseProperty();
        return and(leadsTo(back, some), leadsTo(back, not(some)));
    }

    private OWLClassExpression below(OWLObjectPropertyExpression part, OWLObjectPropertyExpression whole) {
        return and(leadsTo(part, that), not(leadsTo(whole, that)));
    }

    @Override
    public OWLClassExpression visit(OWLSubObjectPropertyOfAxiom axiom) {
        return below(axiom.getSubProperty(), axiom.getSuperProperty());
    }

    @Override
    public OWLClassExpression visit(OWLEquivalentObjectPropertiesAxiom axiom) {
        List<OWLClassExpression> failures = new ArrayList<>(List.of(factory.getOWLNothing()));
        for (OWLObjectPropertyExpression one : axiom.getProperties()) {
            axiom.getProperties().forEach(other -> failures.add(below(one, other)));
        }
        return or(failures);
    }

    @Override
    public OWLClassExpression visit(OWLDisjointObjectPropertiesAxiom axiom) {
        List<OWLClassExpression> failures = new ArrayList<>(List.of(factory.getOWLNothing()));
        List<OWLObjectPropertyExpression> roles = new ArrayList<>(axiom.getProperties());
        for (int one = 0; one < roles.size(); one++) {
            for (int other = 0; other < one; other++) {
                failures.add(and(leadsTo(roles.get(one), that), leadsTo(roles.get(other), that)));
            }
        }
        return or(failures);
    }

    @Override
    public OWLClassExpression visit(OWLSubPropertyChainOfAxiom axiom) {
        OWLClassExpression chain = that;
        for (int at = axiom.getPropertyChain().size() - 1; at >= 0; at--) {
            chain = leadsTo(axiom.getPropertyChain().get(at), chain);
        }
        return and(chain, not(leadsTo(axiom.getSuperProperty(), that)));
    }

    @Override
    public OWLClassExpression visit(OWLTransitiveObjectPropertyAxiom axiom) {
        return and(leadsTo(axiom.getProperty(), leadsTo(axiom.getProperty(), that)),
            not(leadsTo(axiom.getProperty(), that)));
    }

    @Override
    public OWLClassExpression visit(OWLSymmetricObjectPropertyAxiom axiom) {
        return and(that, leadsTo(axiom.getProperty(), not(leadsTo(axiom.getProperty(), that))));
    }

    @Override
    public OWLClassExpression visit(OWLAsymmetricObjectPropertyAxiom axiom) {
        return and(that, leadsTo(axiom.getProperty(), leadsTo(axiom.getProperty(), that)));
    }

    @Override
    public OWLClassExpression visit(OWLReflexiveObjectPropertyAxiom axiom) {
        return and(that, not(leadsTo(axiom.getProperty(), that)));
    }

    @Override
    public OWLClassExpression visit(OWLIrreflexiveObjectPropertyAxiom axiom) {
        return and(that, leadsTo(axiom.getProperty(), that));
    }

    @Override
    public OWLClassExpression visit(OWLInverseObjectPropertiesAxiom axiom) {
        OWLObjectPropertyExpression one = axiom.getFirstProperty();
        OWLObjectPropertyExpression other = axiom.getSecondProperty();
        return and(that, or(List.of(leadsTo(one, not(leadsTo(other, that))), leadsTo(other, not(leadsTo(one, that))))));
    }

    @Override
    public OWLClassExpression visit(OWLClassAssertionAxiom axiom) {
        return and(only(axiom.getIndividual()), not(axiom.getClassExpression()));
    }

    @Override
    public OWLClassExpression visit(OWLObjectPropertyAssertionAxiom axiom) {
        return and(only(axiom.getSubject()), not(leadsTo(axiom.getProperty(), only(axiom.getObject()))));
    }

    @Override
    public OWLClassExpression visit(OWLNegativeObjectPropertyAssertionAxiom axiom) {
        return and(only(axiom.getSubject()), leadsTo(axiom.getProperty(), only(axiom.getObject())));
    }

    @Override
    public OWLClassExpression visit(OWLSameIndividualAxiom axiom) {
        return equality(axiom.getIndividualsAsList().stream().map(this::only).toList());
    }

    @Override
    public OWLClassExpression visit(OWLDifferentIndividualsAxiom axiom) {
        return disjointness(axiom.getIndividualsAsList().stream().map(this::only).toList());
    }
}
