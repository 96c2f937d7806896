package java.util.regex;

import library.Library;

/**
 * Looks for a pattern in a text, which may be one of the program: each method that looks or gives a part of it may call all methods that the
 * library's class calls of it.
 */
public final class Matcher implements MatchResult {
    private Pattern pattern;
    private CharSequence text;

    Matcher(Pattern pattern, CharSequence text) {
        this.pattern = pattern;
        this.text = text;
        draw();
    }

    /** Looks at the text, or does not. */
    void draw() {
        while (Library.any()) {
            if (text != null && Library.any()) {
                text.length();
            }
            if (text != null && Library.any()) {
                text.charAt(Library.number());
            }
            if (text != null && pattern != null && pattern.form != null) {
                pattern.form.look(text);
            }
        }
    }

    /** A part of the text, which one of the program makes itself. */
    private String part() {
        draw();
        if (text != null && Library.any()) {
            return text.subSequence(Library.number(), Library.number()).toString();
        }
        return Library.any() ? null : Library.text();
    }

    public Pattern pattern() {
        if (pattern == null) {
            pattern = Pattern.compile(Library.text());
        }
        return pattern;
    }

    /** The result holds the whole text, or the part with what was found. */
    public MatchResult toMatchResult() {
        replaced();
        part();
        return result();
    }

    private native MatchResult result();

    public Matcher usePattern(Pattern newPattern) {
        if (newPattern == null) {
            throw new IllegalArgumentException();
        }
        pattern = newPattern;
        return this;
    }

    public Matcher reset() {
        draw();
        return this;
    }

    public Matcher reset(CharSequence input) {
        text = input;
        return reset();
    }

    public int start() {
        return at();
    }

    public int start(int group) {
        return at();
    }

    public int start(String name) {
        return at();
    }

    public int end() {
        return at();
    }

    public int end(int group) {
        return at();
    }

    public int end(String name) {
        return at();
    }

    /** A place of the text; it may also fail. */
    private static int at() {
        Library.any();
        return Library.number();
    }

    public String group() {
        return part();
    }

    public String group(int group) {
        return part();
    }

    public String group(String name) {
        return part();
    }

    public int groupCount() {
        return Library.number();
    }

    public boolean matches() {
        draw();
        return Library.any();
    }

    public boolean find() {
        draw();
        return Library.any();
    }

    public boolean find(int start) {
        draw();
        return Library.any();
    }

    public boolean lookingAt() {
        draw();
        return Library.any();
    }

    public static String quoteReplacement(String s) {
        return Library.any() ? s : Library.text();
    }

    public Matcher appendReplacement(StringBuffer sb, String replacement) {
        draw();
        return this;
    }

    public StringBuffer appendTail(StringBuffer sb) {
        draw();
        return sb;
    }

    public String replaceAll(String replacement) {
        return replaced();
    }

    public String replaceFirst(String replacement) {
        return replaced();
    }

    private String replaced() {
        draw();
        return text != null && Library.any() ? text.toString() : Library.text();
    }

    public Matcher region(int start, int end) {
        draw();
        return this;
    }

    public int regionStart() {
        return Library.number();
    }

    public int regionEnd() {
        return Library.number();
    }

    public boolean hasTransparentBounds() {
        return Library.any();
    }

    public Matcher useTransparentBounds(boolean b) {
        return this;
    }

    public boolean hasAnchoringBounds() {
        return Library.any();
    }

    public Matcher useAnchoringBounds(boolean b) {
        return this;
    }

    /** It has the part that was found last. */
    public String toString() {
        part();
        return Library.text();
    }

    public boolean hitEnd() {
        return Library.any();
    }

    public boolean requireEnd() {
        return Library.any();
    }
}
