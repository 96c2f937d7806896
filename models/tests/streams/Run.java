import java.io.*;
import java.lang.reflect.Method;
import java.util.*;
import java.util.jar.*;
import java.util.zip.*;

/**
 * Runs scenarios on a JVM: of each line CLASS METHOD DATA it prints the line and what the log was told. With one that does not end in time it ends,
 * with the status 3. With a word it makes files that scenarios open. It is no part of what is verified.
 */
public class Run {
    private static final String DOCUMENT = "<?xml version=\"1.0\"?>\n<!DOCTYPE r PUBLIC \"p\" \"a.dtd\" [\n<!NOTATION n PUBLIC \"n\">\n<!ENTITY u SYSTEM \"u.gif\" NDATA n>\n"
            + "<!ENTITY e \"some\">\n<!ENTITY f SYSTEM \"f.txt\">\n<!ELEMENT r ANY>\n<!ATTLIST r a CDATA #IMPLIED>\n]>\n<?pi data?><!-- c -->"
            + "<r a=\"1\" xmlns:q=\"urn:q\"><q:s>text &e; &f;</q:s> <![CDATA[c]]></r>\n";

    /** The files that scenarios open by their names. */
    private static void files() throws Exception {
        for (String name : new String[] {"a.zip", "a.jar", "a.doc"}) {
            try (FileOutputStream out = new FileOutputStream(name)) {
                out.write(data(name.substring(2)));
            }
        }
    }

    private static byte[] text(int length) {
        byte[] bytes = new byte[length];
        String line = "k=v 1\r\nab /* 'q' */ 12.5\rz\n";
        for (int at = 0; at < length; at++) {
            bytes[at] = (byte) line.charAt(at % line.length());
        }
        return bytes;
    }

    private static byte[] data(String kind) throws Exception {
        ByteArrayOutputStream made = new ByteArrayOutputStream();
        byte[] plain = text(kind.startsWith("zip") || kind.startsWith("gzip") || kind.equals("jar") ? 3000 : 40000);
        if (kind.equals("zip")) {
            ZipOutputStream out = new ZipOutputStream(made);
            for (String name : new String[] {"a", "b", "c"}) {
                out.putNextEntry(new ZipEntry(name));
                out.write(plain);
                out.closeEntry();
            }
            out.close();
        } else if (kind.equals("gzip")) {
            for (int at = 0; at < 2; at++) {
                GZIPOutputStream out = new GZIPOutputStream(made);
                out.write(plain);
                out.close();
            }
        } else if (kind.equals("deflate")) {
            DeflaterOutputStream out = new DeflaterOutputStream(made);
            out.write(plain);
            out.close();
        } else if (kind.equals("xml")) {
            Properties table = new Properties();
            table.setProperty("k", "v");
            table.storeToXML(made, "c");
        } else if (kind.equals("jar")) {
            Manifest manifest = new Manifest();
            manifest.getMainAttributes().put(Attributes.Name.MANIFEST_VERSION, "1.0");
            JarOutputStream out = new JarOutputStream(made, manifest);
            out.putNextEntry(new ZipEntry("a"));
            out.write(plain);
            out.close();
        } else if (kind.equals("doc")) {
            made.write(DOCUMENT.getBytes("UTF-8"));
        } else if (kind.equals("bad")) {
            made.write(DOCUMENT.replace("</r>", "<x").getBytes("UTF-8"));
        } else if (kind.equals("utf")) {
            DataOutputStream out = new DataOutputStream(made);
            for (int at = 0; at < 100; at++) {
                out.writeUTF("abc");
            }
        } else {
            return plain;
        }
        return made.toByteArray();
    }

    /** How a scenario ended; nothing where it did not end in time. */
    private static String end(String[] parts) throws Exception {
        String[] end = new String[1];
        Thread thread = new Thread(() -> {
            try {
                Method method = Class.forName(parts[0]).getDeclaredMethod(parts[1]);
                method.setAccessible(true);
                method.invoke(null);
                end[0] = "";
            } catch (java.lang.reflect.InvocationTargetException fault) {
                end[0] = fault.getCause().getClass().toString();
            } catch (ReflectiveOperationException fault) {
                end[0] = fault.toString();
            }
        });
        thread.setDaemon(true);
        thread.start();
        thread.join(20000);
        return end[0];
    }

    public static void main(String[] words) throws Exception {
        BufferedReader lines = new BufferedReader(new InputStreamReader(System.in));
        PrintStream out = System.out;
        if (words.length > 0) {
            files();
        }
        Map<String, byte[]> kinds = new HashMap<>();
        for (String line = lines.readLine(); line != null; line = lines.readLine()) {
            String[] parts = line.split(" ");
            if (!kinds.containsKey(parts[2])) {
                kinds.put(parts[2], data(parts[2]));
            }
            Set<String> seen = Collections.synchronizedSet(new TreeSet<>());
            Data.bytes = kinds.get(parts[2]);
            Data.at = 0;
            Data.times = 9000;
            Log.sink = seen::add;
            String end = end(parts);
            Log.sink = null;
            out.println("scenario\t" + parts[0] + "\t" + parts[1] + "\t" + (end == null ? "late" : end));
            for (Object event : seen.toArray()) {
                out.println("event\t" + event);
            }
            if (end == null) {
                out.flush();
                Runtime.getRuntime().halt(3);
            }
        }
    }
}
