package jezundwa.owlapi;

import java.util.List;

/** What a message says of the part of an answer that was there when a call was cut off. */
final class Known {
    private Known() {}

    static String told(List<String> lines) {
        return switch (lines.size()) {
            case 0 -> " (nothing is known of the answer)";
            case 1 -> " (known until then: " + lines.get(0) + ")";
            default -> " (known until then: " + lines.size() + " lines, the first is: " + lines.get(0) + ")";
        };
    }
}
