package java.util.regex;

import java.io.Serializable;
import java.util.function.Predicate;
import java.util.stream.Stream;
import library.Library;
import library.Streams;

/**
 * A pattern, which holds a text. A Matcher looks at the texts of the program for it. The parts of splitAsStream() are found when it is called,
 * and not later.
 */
public final class Pattern implements Serializable {
    public static final int UNIX_LINES = 1;
    public static final int CASE_INSENSITIVE = 2;
    public static final int COMMENTS = 4;
    public static final int MULTILINE = 8;
    public static final int LITERAL = 16;
    public static final int DOTALL = 32;
    public static final int UNICODE_CASE = 64;
    public static final int CANON_EQ = 128;
    public static final int UNICODE_CHARACTER_CLASS = 256;

    /** How the pattern looks at whole texts, if it does. */
    final Form form;

    private Pattern(Form form) {
        this.form = form;
    }

    /** What a pattern does besides where its flags ask for canonical equivalence, as those of JDK 9 and later do: it takes the whole text. */
    static final class Form {
        void look(CharSequence text) {
            if (Library.any()) {
                text.toString();
            }
        }
    }

    public static Pattern compile(String regex) {
        Library.any();
        return new Pattern(null);
    }

    public static Pattern compile(String regex, int flags) {
        Library.any();
        return new Pattern(new Form());
    }

    public String pattern() {
        return Library.text();
    }

    public String toString() {
        return Library.text();
    }

    public Matcher matcher(CharSequence input) {
        return new Matcher(this, input);
    }

    public int flags() {
        return Library.number();
    }

    public static boolean matches(String regex, CharSequence input) {
        return compile(regex).matcher(input).matches();
    }

    public String[] split(CharSequence input, int limit) {
        Matcher matcher = matcher(input);
        String[] parts = new String[Library.number()];
        while (Library.any()) {
            parts[Library.number()] = Library.any() ? input.toString() : matcher.group();
        }
        return parts;
    }

    public String[] split(CharSequence input) {
        return split(input, 0);
    }

    public static String quote(String s) {
        return Library.text();
    }

    public native Predicate<String> asPredicate();

    public Stream<String> splitAsStream(CharSequence input) {
        split(input);
        return Streams.stream();
    }
}
