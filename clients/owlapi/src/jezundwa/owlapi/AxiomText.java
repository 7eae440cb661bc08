package jezundwa.owlapi;

import java.util.Collection;
import java.util.function.Consumer;
import java.util.function.Function;
import java.util.stream.Collectors;
import org.semanticweb.owlapi.model.*;

/**
 * Axioms in functional-style syntax, without their annotations. Each construct that is outside of the program's
 * language is told to {@code outside}. Axioms without meaning, and rules, which the syntax does not have, are written
 * as nothing.
 */
final class AxiomText implements OWLAxiomVisitorEx<String> {
    private final FunctionalText text;
    private final Consumer<String> outside;

    AxiomText(Names names, SimpleRoles simple, Consumer<String> outside) {
        this.text = new FunctionalText(names, simple, outside);
        this.outside = outside;
    }

    String of(OWLAxiom axiom) {
        return axiom.accept(this);
    }

    private String outside(String keyword, String items) {
        outside.accept(keyword);
        return inside(keyword, items);
    }

    private static String inside(String keyword, String items) {
        return keyword + "(" + items + ")";
    }

    private static <T> String list(Collection<T> items, Function<T, String> text) {
        return items.stream().map(text).collect(Collectors.joining(" "));
    }

    private String classes(Collection<OWLClassExpression> classes) {
        return list(classes, text::of);
    }

    private String roles(Collection<OWLObjectPropertyExpression> roles) {
        return list(roles, text::of);
    }

    @Override
    public String visit(OWLSubClassOfAxiom axiom) {
        return inside("SubClassOf", text.of(axiom.getSubClass()) + " " + text.of(axiom.getSuperClass()));
    }

    @Override
    public String visit(OWLEquivalentClassesAxiom axiom) {
        return inside("EquivalentClasses", classes(axiom.getClassExpressionsAsList()));
    }

    @Override
    public String visit(OWLDisjointClassesAxiom axiom) {
        return inside("DisjointClasses", classes(axiom.getClassExpressionsAsList()));
    }

    @Override
    public String visit(OWLDisjointUnionAxiom axiom) {
        return inside("DisjointUnion", text.of(axiom.getOWLClass()) + " " + classes(axiom.getClassExpressions()));
    }

    @Override
    public String visit(OWLSubObjectPropertyOfAxiom axiom) {
        return inside("SubObjectPropertyOf", text.of(axiom.getSubProperty()) + " " + text.of(axiom.getSuperProperty()));
    }

    @Override
    public String visit(OWLSubPropertyChainOfAxiom axiom) {
        outside.accept("ObjectPropertyChain");
        return inside("SubObjectPropertyOf", inside("ObjectPropertyChain", roles(axiom.getPropertyChain())) + " "
            + text.of(axiom.getSuperProperty()));
    }

    @Override
    public String visit(OWLEquivalentObjectPropertiesAxiom axiom) {
        return inside("EquivalentObjectProperties", roles(axiom.getProperties()));
    }

    @Override
    public String visit(OWLDisjointObjectPropertiesAxiom axiom) {
        return outside("DisjointObjectProperties", roles(axiom.getProperties()));
    }

    @Override
    public String visit(OWLInverseObjectPropertiesAxiom axiom) {
        return outside("InverseObjectProperties",
            text.of(axiom.getFirstProperty()) + " " + text.of(axiom.getSecondProperty()));
    }

    @Override
    public String visit(OWLObjectPropertyDomainAxiom axiom) {
        return inside("ObjectPropertyDomain", text.of(axiom.getProperty()) + " " + text.of(axiom.getDomain()));
    }

    @Override
    public String visit(OWLObjectPropertyRangeAxiom axiom) {
        return inside("ObjectPropertyRange", text.of(axiom.getProperty()) + " " + text.of(axiom.getRange()));
    }

    @Override
    public String visit(OWLFunctionalObjectPropertyAxiom axiom) {
        return inside("FunctionalObjectProperty", text.counted(axiom.getProperty()));
    }

    @Override
    public String visit(OWLInverseFunctionalObjectPropertyAxiom axiom) {
        return outside("InverseFunctionalObjectProperty", text.of(axiom.getProperty()));
    }

    @Override
    public String visit(OWLReflexiveObjectPropertyAxiom axiom) {
        return outside("ReflexiveObjectProperty", text.of(axiom.getProperty()));
    }

    @Override
    public String visit(OWLIrreflexiveObjectPropertyAxiom axiom) {
        return outside("IrreflexiveObjectProperty", text.of(axiom.getProperty()));
    }

    @Override
    public String visit(OWLSymmetricObjectPropertyAxiom axiom) {
        return outside("SymmetricObjectProperty", text.of(axiom.getProperty()));
    }

    @Override
    public String visit(OWLAsymmetricObjectPropertyAxiom axiom) {
        return outside("AsymmetricObjectProperty", text.of(axiom.getProperty()));
    }

    @Override
    public String visit(OWLTransitiveObjectPropertyAxiom axiom) {
        return inside("TransitiveObjectProperty", text.of(axiom.getProperty()));
    }

    @Override
    public String visit(OWLClassAssertionAxiom axiom) {
        return inside("ClassAssertion", text.of(axiom.getClassExpression()) + " " + text.of(axiom.getIndividual()));
    }

    @Override
    public String visit(OWLObjectPropertyAssertionAxiom axiom) {
        return inside("ObjectPropertyAssertion",
            text.of(axiom.getProperty()) + " " + text.of(axiom.getSubject()) + " " + text.of(axiom.getObject()));
    }

    @Override
    public String visit(OWLNegativeObjectPropertyAssertionAxiom axiom) {
        return outside("NegativeObjectPropertyAssertion",
            text.of(axiom.getProperty()) + " " + text.of(axiom.getSubject()) + " " + text.of(axiom.getObject()));
    }

    @Override
    public String visit(OWLSameIndividualAxiom axiom) {
        return inside("SameIndividual", list(axiom.getIndividualsAsList(), text::of));
    }

    @Override
    public String visit(OWLDifferentIndividualsAxiom axiom) {
        return inside("DifferentIndividuals", list(axiom.getIndividualsAsList(), text::of));
    }

    @Override
    public String visit(OWLSubDataPropertyOfAxiom axiom) {
        return outside("SubDataPropertyOf", text.of(axiom.getSubProperty()) + " " + text.of(axiom.getSuperProperty()));
    }

    @Override
    public String visit(OWLEquivalentDataPropertiesAxiom axiom) {
        return outside("EquivalentDataProperties", list(axiom.getProperties(), text::of));
    }

    @Override
    public String visit(OWLDisjointDataPropertiesAxiom axiom) {
        return outside("DisjointDataProperties", list(axiom.getProperties(), text::of));
    }

    @Override
    public String visit(OWLDataPropertyDomainAxiom axiom) {
        return outside("DataPropertyDomain", text.of(axiom.getProperty()) + " " + text.of(axiom.getDomain()));
    }

    @Override
    public String visit(OWLDataPropertyRangeAxiom axiom) {
        return outside("DataPropertyRange", text.of(axiom.getProperty()) + " " + text.of(axiom.getRange()));
    }

    @Override
    public String visit(OWLFunctionalDataPropertyAxiom axiom) {
        return outside("FunctionalDataProperty", text.of(axiom.getProperty()));
    }

    @Override
    public String visit(OWLDataPropertyAssertionAxiom axiom) {
        return outside("DataPropertyAssertion",
            text.of(axiom.getProperty()) + " " + text.of(axiom.getSubject()) + " " + text.of(axiom.getObject()));
    }

    @Override
    public String visit(OWLNegativeDataPropertyAssertionAxiom axiom) {
        return outside("NegativeDataPropertyAssertion",
            text.of(axiom.getProperty()) + " " + text.of(axiom.getSubject()) + " " + text.of(axiom.getObject()));
    }

    @Override
    public String visit(OWLDatatypeDefinitionAxiom axiom) {
        return outside("DatatypeDefinition", text.of(axiom.getDatatype()) + " " + text.of(axiom.getDataRange()));
    }

    @Override
    public String visit(OWLHasKeyAxiom axiom) {
        return outside("HasKey", text.of(axiom.getClassExpression())
            + " (" + roles(axiom.getObjectPropertyExpressions())
            + ") (" + list(axiom.getDataPropertyExpressions(), text::of) + ")");
    }

    @Override
    public String visit(SWRLRule rule) {
        outside.accept("DLSafeRule");
        return "";
    }

    @Override
    public String visit(OWLDeclarationAxiom axiom) {
        return "";
    }

    @Override
    public String visit(OWLAnnotationAssertionAxiom axiom) {
        return "";
    }

    @Override
    public String visit(OWLSubAnnotationPropertyOfAxiom axiom) {
        return "";
    }

    @Override
    public String visit(OWLAnnotationPropertyDomainAxiom axiom) {
        return "";
    }

    @Override
    public String visit(OWLAnnotationPropertyRangeAxiom axiom) {
        return "";
    }
}
