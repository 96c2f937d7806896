// A builder is kept in a field, and used for a second letter.
public final class Keeps {
    final LetterBuilder builder = new LetterBuilder();

    String letter(String name) {
        return builder.add("Dear ").add(name).build();
    }

    public static void main(String[] args) {
        Keeps office = new Keeps();
        System.out.println(office.letter("Ann"));
        System.out.println(new Keeps().letter("Bob"));
    }
}

class LetterBuilder {
    String text = "";
    boolean built;
    LetterBuilder add(String more) {
        if (built) {
            throw new IllegalStateException("add after build");
        }
        text = text + more;
        return this;
    }
    String build() {
        built = true;
        return text;
    }
}
