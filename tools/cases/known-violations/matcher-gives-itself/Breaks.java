// Matcher.usePattern gives the matcher itself.
import java.util.regex.*;

public final class Breaks {
    public static void main(String[] args) {
        Matcher words = Pattern.compile("[a-z]+").matcher("a b");
        System.out.println(words.find());
        Matcher same = words.usePattern(Pattern.compile("[a-z]"));
        words.reset("1");
        System.out.println(same.group());  // errs here
    }
}
