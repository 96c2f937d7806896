package desugar;

import java.io.PrintStream;
import java.util.ArrayList;
import java.util.List;

/** What could not be rewritten: each place by class, method and line, with what to do. */
final class Problems {
    private final List<String> lines = new ArrayList<>();

    /** Adds a place, which is told once. */
    void add(String place, String what, String advice) {
        String line = place + ": " + what + ": " + advice;
        if (!lines.contains(line)) {
            lines.add(line);
        }
    }

    int count() {
        return lines.size();
    }

    void print(PrintStream target) {
        lines.forEach(line -> target.println("desugar: " + line));
    }
}
