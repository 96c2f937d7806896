// StringWriter.getBuffer gives the same buffer each time.
import java.io.StringWriter;

public final class Keeps {
    public static void main(String[] args) {
        StringWriter to = new StringWriter();
        to.write("text");
        to.getBuffer().deleteCharAt(0);
        to.getBuffer().setLength(0);
        System.out.println(to.toString());
    }
}
