/** Adds lines to a builder, and asks how long the letter would be; it is never built. */
public final class Keeps {
    private Keeps() {
    }

    public static void main(String[] args) {
        LetterBuilder letter = new LetterBuilder().add("Dear reader,");
        for (String line : args) {
            letter.add(line);
        }
        System.out.println(letter.length());
    }
}
