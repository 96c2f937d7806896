/** Builds a letter of lines, once. */
public final class LetterBuilder {
    private StringBuilder text = new StringBuilder();

    public LetterBuilder add(String line) {
        text.append(line).append('\n');
        return this;
    }

    public int length() {
        return text.length();
    }

    public String build() {
        String letter = text.toString();
        text = null;
        return letter;
    }
}
