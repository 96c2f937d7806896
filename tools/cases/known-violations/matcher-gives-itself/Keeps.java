// Matcher.usePattern gives the matcher itself.
import java.util.regex.*;

public final class Keeps {
    public static void main(String[] args) {
        Matcher words = Pattern.compile("[a-z]+").matcher("a b");
        System.out.println(words.find());
        Matcher same = words.usePattern(Pattern.compile("[a-z]"));
        words.find();
        System.out.println(same.group());
        words.reset("1");
    }
}
