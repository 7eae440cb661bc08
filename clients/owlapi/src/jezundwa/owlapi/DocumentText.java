package jezundwa.owlapi;

import java.util.ArrayList;
import java.util.List;
import java.util.Set;

/**
 * An ontology in functional-style syntax as the program reads it, and where each of its axioms stands: the program
 * numbers them in their order.
 */
final class DocumentText {
    private static final Set<String> NO_AXIOMS = Set.of("Declaration", "Import", "Annotation", "AnnotationAssertion",
        "SubAnnotationPropertyOf", "AnnotationPropertyDomain", "AnnotationPropertyRange");
    private static final Set<String> ASSERTIONS = Set.of("ClassAssertion", "ObjectPropertyAssertion", "SameIndividual",
        "DifferentIndividuals");

    /** An axiom: its keyword, the places where it begins and ends, and the line of its beginning. */
    private record Place(String keyword, int start, int end, int line) {}

    private final String text;
    private final List<Place> axioms;
    private final int closing;

    DocumentText(String text) {
        this.text = text;
        Scan scan = new Scan(text);
        this.axioms = scan.axioms;
        this.closing = scan.closing;
    }

    String text() {
        return text;
    }

    int axiomCount() {
        return axioms.size();
    }

    /** The line of the axiom of a number, from 1; 0 where there is none. */
    int lineOf(int number) {
        return number >= 1 && number <= axioms.size() ? axioms.get(number - 1).line() : 0;
    }

    String line(int number) {
        return text.lines().skip(number - 1L).findFirst().orElse("");
    }

    /** The text with more axioms behind its own. */
    String with(List<String> more) {
        return more.isEmpty() ? text : text.substring(0, closing) + "\n" + String.join("\n", more) + "\n)\n";
    }

    /** The same text without its assertions. */
    DocumentText withoutAssertions() {
        StringBuilder rest = new StringBuilder();
        int from = 0;
        for (Place axiom : axioms) {
            if (ASSERTIONS.contains(axiom.keyword())) {
                rest.append(text, from, axiom.start());
                from = axiom.end();
            }
        }
        return new DocumentText(rest.append(text, from, text.length()).toString());
    }

    /** One way through a text: the brackets in the one of {@code Ontology} are its axioms. */
    private static final class Scan {
        private final String text;
        private final List<Place> axioms = new ArrayList<>();
        private int closing;
        private int depth;
        private int line = 1;
        /** Where the word before the next sign began; -1 where there is none. */
        private int wordStart = -1;
        private int axiomStart;
        private int axiomLine;
        private String keyword = "";

        Scan(String text) {
            this.text = text;
            for (int at = 0; at < text.length(); at++) {
                switch (text.charAt(at)) {
                    case '"', '<', '#' -> at = passQuoted(at);
                    case '(' -> open(at);
                    case ')' -> close(at);
                    default -> pass(at);
                }
            }
        }

        /** Passes over a string, an IRI or a comment, and answers its last place. */
        private int passQuoted(int start) {
            int last = lastOf(start);
            line += (int) text.substring(start, last + 1).chars().filter(sign -> sign == '\n').count();
            wordStart = -1;
            return last;
        }

        private int lastOf(int start) {
            char first = text.charAt(start);
            char end = first == '"' ? '"' : first == '<' ? '>' : '\n';
            for (int at = start + 1; at < text.length(); at++) {
                if (first == '"' && text.charAt(at) == '\\') {
                    at++;
                } else if (text.charAt(at) == end) {
                    return at;
                }
            }
            return text.length() - 1;
        }

        private void open(int at) {
            depth++;
            if (depth == 2) {
                axiomStart = wordStart < 0 ? at : wordStart;
                axiomLine = line;
                keyword = text.substring(axiomStart, at);
            }
            wordStart = -1;
        }

        private void close(int at) {
            depth--;
            if (depth == 1 && !NO_AXIOMS.contains(keyword)) {
                axioms.add(new Place(keyword, axiomStart, at + 1, axiomLine));
            }
            if (depth == 0) {
                closing = at;
            }
            wordStart = -1;
        }

        private void pass(int at) {
            if (Character.isWhitespace(text.charAt(at))) {
                line += text.charAt(at) == '\n' ? 1 : 0;
                wordStart = -1;
            } else if (wordStart < 0) {
                wordStart = at;
            }
        }
    }
}
