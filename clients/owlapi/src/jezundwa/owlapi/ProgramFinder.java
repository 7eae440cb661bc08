package jezundwa.owlapi;

import java.io.File;
import java.nio.file.Files;
import java.nio.file.Path;
import java.util.List;
import java.util.Optional;
import java.util.stream.Stream;

/**
 * Where the program is: what the configuration or the system property {@code jezundwa.program} names; else what the
 * environment variable {@code JEZUNDWA_PROGRAM} names; else {@code ontology_cli} or {@code shq} on the PATH. The
 * program itself answers faster than {@code shq}, which starts Python before it.
 */
final class ProgramFinder {
    private static final List<String> PROGRAMS = List.of("ontology_cli", "shq");

    private ProgramFinder() {}

    static Path program(String configured) {
        return named(configured).or(() -> PROGRAMS.stream().flatMap(name -> onPath(name).stream()).findFirst())
            .orElseThrow(() -> new ProgramException.NotFound("none of " + PROGRAMS + " is on the PATH, and neither the "
                + "property jezundwa.program nor the variable JEZUNDWA_PROGRAM names one"));
    }

    /** {@code shq}: the program where it is that one, that of the checkout in which the program lies, or the PATH's. */
    static Path translator(String configured) {
        Optional<Path> named = named(configured);
        return Stream.of(named.filter(path -> path.endsWith("shq")), named.flatMap(ProgramFinder::checkout),
                onPath("shq"))
            .flatMap(Optional::stream).findFirst()
            .orElseThrow(() -> new ProgramException.NotFound("APPROXIMATE needs shq, which is not on the PATH"));
    }

    private static Optional<Path> named(String configured) {
        String name = configured != null ? configured : System.getenv("JEZUNDWA_PROGRAM");
        if (name == null || name.isBlank()) {
            return Optional.empty();
        }
        Path path = Path.of(name);
        if (path.getNameCount() == 1 && !path.isAbsolute()) {
            return Optional.of(onPath(name)
                .orElseThrow(() -> new ProgramException.NotFound(name + " is not on the PATH")));
        }
        if (!Files.isExecutable(path)) {
            throw new ProgramException.NotFound(name + " is no program");
        }
        return Optional.of(path.toAbsolutePath());
    }

    /** {@code shq} of the checkout in whose {@code crates/ontology_cli/out} a program lies. */
    private static Optional<Path> checkout(Path program) {
        return Stream.iterate(program.getParent(), folder -> folder != null, Path::getParent)
            .map(folder -> folder.resolve("shq")).filter(Files::isExecutable).findFirst();
    }

    private static Optional<Path> onPath(String name) {
        String path = Optional.ofNullable(System.getenv("PATH")).orElse("");
        return Stream.of(path.split(File.pathSeparator)).filter(folder -> !folder.isEmpty())
            .map(folder -> Path.of(folder, name)).filter(Files::isExecutable).findFirst();
    }
}
