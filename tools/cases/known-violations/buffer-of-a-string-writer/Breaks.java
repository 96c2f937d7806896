// StringWriter.getBuffer gives the same buffer each time.
import java.io.StringWriter;

public final class Breaks {
    public static void main(String[] args) {
        StringWriter to = new StringWriter();
        to.write("text");
        to.getBuffer().setLength(0);
        to.getBuffer().deleteCharAt(0);  // errs here
        System.out.println(to.toString());
    }
}
