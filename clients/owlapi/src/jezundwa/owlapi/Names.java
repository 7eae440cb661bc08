package jezundwa.owlapi;

import java.util.HashMap;
import java.util.Map;
import java.util.regex.Matcher;
import java.util.regex.Pattern;
import org.semanticweb.owlapi.model.OWLClass;
import org.semanticweb.owlapi.model.OWLDataProperty;
import org.semanticweb.owlapi.model.OWLDatatype;
import org.semanticweb.owlapi.model.OWLEntity;
import org.semanticweb.owlapi.model.OWLIndividual;
import org.semanticweb.owlapi.model.OWLObject;
import org.semanticweb.owlapi.model.OWLObjectProperty;

/**
 * Short names as {@code <c12>} and {@code <i7>} for what an ontology names. So any IRI becomes a plain token, and a
 * question in the words of a command line is ASCII, whatever the locale of the machine is.
 */
final class Names {
    private static final Pattern SHORT_NAME = Pattern.compile("<[cripd][0-9]+>");
    private static final Pattern PLAIN_IRI = Pattern.compile("[^\\s<>\"\\\\{}|^`]+");

    private final Map<OWLObject, String> names = new HashMap<>();
    private final Map<String, OWLObject> named = new HashMap<>();

    private String name(OWLObject object, char kind) {
        return names.computeIfAbsent(object, unnamed -> {
            String name = "<" + kind + names.size() + ">";
            named.put(name, object);
            return name;
        });
    }

    String of(OWLClass type) {
        if (type.isOWLThing()) {
            return "owl:Thing";
        }
        return type.isOWLNothing() ? "owl:Nothing" : name(type, 'c');
    }

    String of(OWLObjectProperty role) {
        if (role.isOWLTopObjectProperty()) {
            return "owl:topObjectProperty";
        }
        return role.isOWLBottomObjectProperty() ? "owl:bottomObjectProperty" : name(role, 'r');
    }

    String of(OWLIndividual individual) {
        return name(individual, 'i');
    }

    String of(OWLDataProperty property) {
        return property.isBuiltIn() ? property.getIRI().toQuotedString() : name(property, 'p');
    }

    String of(OWLDatatype type) {
        return type.isBuiltIn() ? type.getIRI().toQuotedString() : name(type, 'd');
    }

    /** The class of a name in an answer; null where the name is none of the ontology. */
    OWLClass classOf(String name) {
        return named.get(name) instanceof OWLClass type && !Helpers.isHelper(type) ? type : null;
    }

    OWLObjectProperty roleOf(String name) {
        return named.get(name) instanceof OWLObjectProperty role && !Helpers.isHelper(role) ? role : null;
    }

    OWLIndividual individualOf(String name) {
        if (!(named.get(name) instanceof OWLIndividual individual)) {
            return null;
        }
        return individual.isNamed() && Helpers.isHelper(individual.asOWLNamedIndividual()) ? null : individual;
    }

    /** A text with the names of the ontology; one whose IRI could not stand in a text keeps its short name. */
    String decode(String text) {
        return SHORT_NAME.matcher(text).replaceAll(match -> Matcher.quoteReplacement(full(match.group())));
    }

    private String full(String name) {
        if (named.get(name) instanceof OWLEntity entity) {
            String iri = entity.getIRI().toString();
            return PLAIN_IRI.matcher(iri).matches() ? "<" + iri + ">" : name;
        }
        return name;
    }
}
