// A builder is kept in a field, and used for a second letter.
public final class Breaks {
    final LetterBuilder builder = new LetterBuilder();

    String letter(String name) {
        return builder.add("Dear ").add(name).build();  // errs here
    }

    public static void main(String[] args) {
        Breaks office = new Breaks();
        System.out.println(office.letter("Ann"));
        System.out.println(office.letter("Bob"));
    }
}

class LetterBuilder {
    String text = "";
    boolean built;
    LetterBuilder add(String more) {
        if (built) {
            throw new IllegalStateException("add after build");
        }
        text = text + more;
        return this;
    }
    String build() {
        built = true;
        return text;
    }
}
