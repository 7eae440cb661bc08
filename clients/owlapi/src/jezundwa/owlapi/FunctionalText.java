package jezundwa.owlapi;

import java.util.Collection;
import java.util.function.Consumer;
import java.util.stream.Collectors;
import org.semanticweb.owlapi.model.ClassExpressionType;
import org.semanticweb.owlapi.model.OWLClass;
import org.semanticweb.owlapi.model.OWLClassExpression;
import org.semanticweb.owlapi.model.OWLClassExpressionVisitorEx;
import org.semanticweb.owlapi.model.OWLDataAllValuesFrom;
import org.semanticweb.owlapi.model.OWLDataCardinalityRestriction;
import org.semanticweb.owlapi.model.OWLDataComplementOf;
import org.semanticweb.owlapi.model.OWLDataExactCardinality;
import org.semanticweb.owlapi.model.OWLDataHasValue;
import org.semanticweb.owlapi.model.OWLDataIntersectionOf;
import org.semanticweb.owlapi.model.OWLDataMaxCardinality;
import org.semanticweb.owlapi.model.OWLDataMinCardinality;
import org.semanticweb.owlapi.model.OWLDataOneOf;
import org.semanticweb.owlapi.model.OWLDataPropertyExpression;
import org.semanticweb.owlapi.model.OWLDataRange;
import org.semanticweb.owlapi.model.OWLDataRangeVisitorEx;
import org.semanticweb.owlapi.model.OWLDataSomeValuesFrom;
import org.semanticweb.owlapi.model.OWLDataUnionOf;
import org.semanticweb.owlapi.model.OWLDatatype;
import org.semanticweb.owlapi.model.OWLDatatypeRestriction;
import org.semanticweb.owlapi.model.OWLFacetRestriction;
import org.semanticweb.owlapi.model.OWLIndividual;
import org.semanticweb.owlapi.model.OWLLiteral;
import org.semanticweb.owlapi.model.OWLObjectAllValuesFrom;
import org.semanticweb.owlapi.model.OWLObjectCardinalityRestriction;
import org.semanticweb.owlapi.model.OWLObjectComplementOf;
import org.semanticweb.owlapi.model.OWLObjectExactCardinality;
import org.semanticweb.owlapi.model.OWLObjectHasSelf;
import org.semanticweb.owlapi.model.OWLObjectHasValue;
import org.semanticweb.owlapi.model.OWLObjectIntersectionOf;
import org.semanticweb.owlapi.model.OWLObjectMaxCardinality;
import org.semanticweb.owlapi.model.OWLObjectMinCardinality;
import org.semanticweb.owlapi.model.OWLObjectOneOf;
import org.semanticweb.owlapi.model.OWLObjectPropertyExpression;
import org.semanticweb.owlapi.model.OWLObjectSomeValuesFrom;
import org.semanticweb.owlapi.model.OWLObjectUnionOf;

/**
 * Class expressions, data ranges and what is in them, in functional-style syntax with short names. All of OWL 2 is
 * written; each construct that is outside of the program's language is told, by its keyword, to {@code outside}.
 */
final class FunctionalText implements OWLClassExpressionVisitorEx<String> {
    /** The greatest number of a number restriction that the program reads. */
    static final int GREATEST_NUMBER = 100;

    private final Names names;
    private final SimpleRoles simple;
    private final Consumer<String> outside;
    private final DataText data = new DataText();

    FunctionalText(Names names, SimpleRoles simple, Consumer<String> outside) {
        this.names = names;
        this.simple = simple;
        this.outside = outside;
    }

    String of(OWLClassExpression expression) {
        return expression.accept(this);
    }

    String of(OWLIndividual individual) {
        return names.of(individual);
    }

    String of(OWLObjectPropertyExpression role) {
        if (!role.isAnonymous()) {
            if (role.isOWLTopObjectProperty() || role.isOWLBottomObjectProperty()) {
                outside.accept(names.of(role.asOWLObjectProperty()));
            }
            return names.of(role.asOWLObjectProperty());
        }
        outside.accept("ObjectInverseOf");
        return "ObjectInverseOf(" + names.of(role.getNamedProperty()) + ")";
    }

    /** A role that is counted, which has to be simple. */
    String counted(OWLObjectPropertyExpression role) {
        if (!simple.isSimple(role)) {
            outside.accept("not-simple");
        }
        return of(role);
    }

    String of(OWLDataPropertyExpression property) {
        return names.of(property.asOWLDataProperty());
    }

    String of(OWLDataRange range) {
        return range.accept(data);
    }

    /** A literal; its text may have line feeds. */
    String of(OWLLiteral literal) {
        String text = literal.getLiteral().replace("\\", "\\\\").replace("\"", "\\\"");
        return literal.hasLang() ? '"' + text + "\"@" + literal.getLang()
            : '"' + text + "\"^^" + names.of(literal.getDatatype());
    }

    private String classes(Collection<? extends OWLClassExpression> expressions) {
        return expressions.stream().map(this::of).collect(Collectors.joining(" "));
    }

    /** An intersection or union; the OWL API allows one of a single class, or of none, and the syntax does not. */
    private String many(String keyword, String ofNone, Collection<? extends OWLClassExpression> operands) {
        return switch (operands.size()) {
            case 0 -> ofNone;
            case 1 -> of(operands.iterator().next());
            default -> keyword + "(" + classes(operands) + ")";
        };
    }

    private String number(ClassExpressionType type, OWLObjectCardinalityRestriction restriction) {
        if (restriction.getCardinality() > GREATEST_NUMBER) {
            outside.accept("number");
        }
        return type.getName() + "(" + restriction.getCardinality() + " " + counted(restriction.getProperty()) + " "
            + of(restriction.getFiller()) + ")";
    }

    private String dataNumber(ClassExpressionType type, OWLDataCardinalityRestriction restriction) {
        outside.accept(type.getName());
        return type.getName() + "(" + restriction.getCardinality() + " " + of(restriction.getProperty()) + " "
            + of(restriction.getFiller()) + ")";
    }

    @Override
    public String visit(OWLClass type) {
        return names.of(type);
    }

    @Override
    public String visit(OWLObjectIntersectionOf intersection) {
        return many("ObjectIntersectionOf", "owl:Thing", intersection.getOperands());
    }

    @Override
    public String visit(OWLObjectUnionOf union) {
        return many("ObjectUnionOf", "owl:Nothing", union.getOperands());
    }

    @Override
    public String visit(OWLObjectComplementOf complement) {
        return "ObjectComplementOf(" + of(complement.getOperand()) + ")";
    }

    @Override
    public String visit(OWLObjectSomeValuesFrom some) {
        return "ObjectSomeValuesFrom(" + of(some.getProperty()) + " " + of(some.getFiller()) + ")";
    }

    @Override
    public String visit(OWLObjectAllValuesFrom all) {
        return "ObjectAllValuesFrom(" + of(all.getProperty()) + " " + of(all.getFiller()) + ")";
    }

    @Override
    public String visit(OWLObjectHasValue value) {
        outside.accept("ObjectHasValue");
        return "ObjectHasValue(" + of(value.getProperty()) + " " + of(value.getFiller()) + ")";
    }

    @Override
    public String visit(OWLObjectMinCardinality least) {
        return number(ClassExpressionType.OBJECT_MIN_CARDINALITY, least);
    }

    @Override
    public String visit(OWLObjectExactCardinality exactly) {
        return number(ClassExpressionType.OBJECT_EXACT_CARDINALITY, exactly);
    }

    @Override
    public String visit(OWLObjectMaxCardinality most) {
        return number(ClassExpressionType.OBJECT_MAX_CARDINALITY, most);
    }

    @Override
    public String visit(OWLObjectHasSelf self) {
        outside.accept("ObjectHasSelf");
        return "ObjectHasSelf(" + of(self.getProperty()) + ")";
    }

    @Override
    public String visit(OWLObjectOneOf oneOf) {
        outside.accept("ObjectOneOf");
        return "ObjectOneOf(" + oneOf.getIndividuals().stream().map(this::of).collect(Collectors.joining(" ")) + ")";
    }

    @Override
    public String visit(OWLDataSomeValuesFrom some) {
        outside.accept("DataSomeValuesFrom");
        return "DataSomeValuesFrom(" + of(some.getProperty()) + " " + of(some.getFiller()) + ")";
    }

    @Override
    public String visit(OWLDataAllValuesFrom all) {
        outside.accept("DataAllValuesFrom");
        return "DataAllValuesFrom(" + of(all.getProperty()) + " " + of(all.getFiller()) + ")";
    }

    @Override
    public String visit(OWLDataHasValue value) {
        outside.accept("DataHasValue");
        return "DataHasValue(" + of(value.getProperty()) + " " + of(value.getFiller()) + ")";
    }

    @Override
    public String visit(OWLDataMinCardinality least) {
        return dataNumber(ClassExpressionType.DATA_MIN_CARDINALITY, least);
    }

    @Override
    public String visit(OWLDataExactCardinality exactly) {
        return dataNumber(ClassExpressionType.DATA_EXACT_CARDINALITY, exactly);
    }

    @Override
    public String visit(OWLDataMaxCardinality most) {
        return dataNumber(ClassExpressionType.DATA_MAX_CARDINALITY, most);
    }

    /** Data ranges; all of them are outside of the language, as is whatever they stand in. */
    private final class DataText implements OWLDataRangeVisitorEx<String> {
        private String ranges(Collection<? extends OWLDataRange> ranges) {
            return ranges.stream().map(FunctionalText.this::of).collect(Collectors.joining(" "));
        }

        @Override
        public String visit(OWLDatatype type) {
            return names.of(type);
        }

        @Override
        public String visit(OWLDataOneOf oneOf) {
            return "DataOneOf(" + oneOf.getValues().stream().map(FunctionalText.this::of)
                .collect(Collectors.joining(" ")) + ")";
        }

        @Override
        public String visit(OWLDataComplementOf complement) {
            return "DataComplementOf(" + of(complement.getDataRange()) + ")";
        }

        @Override
        public String visit(OWLDataIntersectionOf intersection) {
            return "DataIntersectionOf(" + ranges(intersection.getOperands()) + ")";
        }

        @Override
        public String visit(OWLDataUnionOf union) {
            return "DataUnionOf(" + ranges(union.getOperands()) + ")";
        }

        @Override
        public String visit(OWLDatatypeRestriction restriction) {
            return "DatatypeRestriction(" + of(restriction.getDatatype()) + " "
                + restriction.getFacetRestrictions().stream().map(this::facet).collect(Collectors.joining(" ")) + ")";
        }

        private String facet(OWLFacetRestriction restriction) {
            return restriction.getFacet().getIRI().toQuotedString() + " " + of(restriction.getFacetValue());
        }
    }
}
