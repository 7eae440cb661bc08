package jezundwa.owlapi;

import java.io.BufferedReader;
import java.io.File;
import java.io.IOException;
import java.nio.charset.StandardCharsets;
import java.nio.file.Files;
import java.util.Map;
import java.util.Optional;
import java.util.function.Supplier;
import java.util.regex.Pattern;
import java.util.stream.Stream;
import org.semanticweb.owlapi.formats.FunctionalSyntaxDocumentFormat;
import org.semanticweb.owlapi.formats.ManchesterSyntaxDocumentFormat;
import org.semanticweb.owlapi.formats.N3DocumentFormat;
import org.semanticweb.owlapi.formats.NTriplesDocumentFormat;
import org.semanticweb.owlapi.formats.OBODocumentFormat;
import org.semanticweb.owlapi.formats.RDFJsonDocumentFormat;
import org.semanticweb.owlapi.formats.RDFJsonLDDocumentFormat;
import org.semanticweb.owlapi.formats.TrigDocumentFormat;
import org.semanticweb.owlapi.formats.TurtleDocumentFormat;
import org.semanticweb.owlapi.model.OWLDocumentFormat;

/**
 * A syntax by how a file in it begins. Where the OWL API is not told the syntax, it tries its parsers in turn; and some
 * take a file of another syntax that is cut off or damaged as a smaller ontology.
 */
enum DocumentSyntax {
    FUNCTIONAL("(Prefix|Ontology)\\s*\\(", FunctionalSyntaxDocumentFormat::new),
    OBO("(format-version|data-version|date|saved-by|auto-generated-by|default-namespace|remark)\\s*:\\s"
        + "|ontology\\s*:\\s*[^<\\s]|\\[(Term|Typedef|Instance)\\]", OBODocumentFormat::new),
    JSON_LD("[\\[{]", RDFJsonLDDocumentFormat::new),
    MANCHESTER("(Prefix|Ontology|Namespace)\\s*:\\s", ManchesterSyntaxDocumentFormat::new),
    TURTLE("@(prefix|base)\\s|(prefix|base)\\s+[\\w-]*:?\\s*<|(<[^<>\\s]*>|_:\\S+)\\s+a\\s", TurtleDocumentFormat::new),
    N_TRIPLES("(<[^<>\\s]*>|_:\\S+)\\s+<[^<>\\s]*>\\s+[<\"_]", NTriplesDocumentFormat::new);

    /** Syntaxes that begin as another one, by how their files end. */
    private static final Map<String, Supplier<OWLDocumentFormat>> BY_NAME =
        Map.of(".n3", N3DocumentFormat::new, ".trig", TrigDocumentFormat::new, ".rj", RDFJsonDocumentFormat::new);
    private static final String BYTE_ORDER_MARK = "\u00ef\u00bb\u00bf";

    private final Pattern beginning;
    private final Supplier<OWLDocumentFormat> format;

    DocumentSyntax(String beginning, Supplier<OWLDocumentFormat> format) {
        this.beginning = Pattern.compile(beginning, Pattern.CASE_INSENSITIVE);
        this.format = format;
    }

    /** The format of a file, or empty for one in XML, where that begins as any other, and for one in no syntax here. */
    static Optional<OWLDocumentFormat> formatOf(File file) throws IOException {
        for (Map.Entry<String, Supplier<OWLDocumentFormat>> one : BY_NAME.entrySet()) {
            if (file.getName().endsWith(one.getKey())) {
                return Optional.of(one.getValue().get());
            }
        }
        String first = firstLine(file);
        return Stream.of(values()).filter(syntax -> syntax.beginning.matcher(first).lookingAt()).findFirst()
            .map(syntax -> syntax.format.get());
    }

    /** The first line that is neither blank nor a comment, from its first sign on. */
    private static String firstLine(File file) throws IOException {
        // Each byte is a character here, so that nothing is wrong with a file in whatever encoding.
        try (BufferedReader reader = Files.newBufferedReader(file.toPath(), StandardCharsets.ISO_8859_1)) {
            for (String line = reader.readLine(); line != null; line = reader.readLine()) {
                String text = line.replaceFirst("^" + BYTE_ORDER_MARK, "").strip();
                if (!text.isEmpty() && !text.startsWith("#") && !text.startsWith("!")) {
                    return text;
                }
            }
        }
        return "";
    }
}
