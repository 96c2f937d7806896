/** Builds the letter, and adds one more line. */
public final class Breaks {
    private Breaks() {
    }

    public static void main(String[] args) {
        LetterBuilder letter = new LetterBuilder().add("Dear reader,");
        System.out.println(letter.build());
        for (String line : args) {
            letter.add(line);
        }
    }
}
