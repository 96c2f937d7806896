import java.io.*;
import java.nio.charset.*;
import java.util.*;
import java.util.jar.*;
import java.util.zip.*;

/** Objects of a user around archives, their entries and streams, and what makes these. */
class Archives {
    /** A file that is asked for its name. */
    static class Named extends File implements Seen {
        Named(String name) { super(name); }
        public String getPath() { new Hit("Archives$Named getPath()Ljava/lang/String;"); return super.getPath(); }
        public String getName() { new Hit("Archives$Named getName()Ljava/lang/String;"); return super.getName(); }
        public String getAbsolutePath() { new Hit("Archives$Named getAbsolutePath()Ljava/lang/String;"); return super.getAbsolutePath(); }
        public boolean exists() { new Hit("Archives$Named exists()Z"); return super.exists(); }
        public long length() { new Hit("Archives$Named length()J"); return super.length(); }
        public long lastModified() { new Hit("Archives$Named lastModified()J"); return super.lastModified(); }
        public boolean equals(Object other) { new Hit("Archives$Named equals(Ljava/lang/Object;)Z"); return super.equals(other); }
        public int hashCode() { new Hit("Archives$Named hashCode()I"); return super.hashCode(); }
        public int compareTo(File other) { new Hit("Archives$Named compareTo(Ljava/io/File;)I"); return super.compareTo(other); }
        public String toString() { new Hit("Archives$Named toString()Ljava/lang/String;"); return super.toString(); }
        public java.nio.file.Path toPath() { new Hit("Archives$Named toPath()Ljava/nio/file/Path;"); return super.toPath(); }
        public void back() { new Hit("Archives$Named back()V"); }
    }

    /** Its entries are of a class of its own. */
    static class Unpacks extends ZipInputStream implements Seen {
        Unpacks(InputStream in) { super(in); }
        protected ZipEntry createZipEntry(String name) { new Hit("Archives$Unpacks createZipEntry(Ljava/lang/String;)Ljava/util/zip/ZipEntry;"); return new RecEntry(name); }
        public void back() { new Hit("Archives$Unpacks back()V"); }
    }

    static class Unjars extends JarInputStream implements Seen {
        Unjars(InputStream in) throws IOException { super(in); }
        protected ZipEntry createZipEntry(String name) { new Hit("Archives$Unjars createZipEntry(Ljava/lang/String;)Ljava/util/zip/ZipEntry;"); return new JarEntry(new RecEntry(name)); }
        public void back() { new Hit("Archives$Unjars back()V"); }
    }

    static class Lists extends Manifest implements Seen {
        Lists() { getMainAttributes().put(java.util.jar.Attributes.Name.MANIFEST_VERSION, "1.0"); }
        public void write(OutputStream to) throws IOException { new Hit("Archives$Lists write(Ljava/io/OutputStream;)V"); super.write(to); }
        public void read(InputStream from) throws IOException { new Hit("Archives$Lists read(Ljava/io/InputStream;)V"); super.read(from); }
        public java.util.jar.Attributes getMainAttributes() { new Hit("Archives$Lists getMainAttributes()Ljava/util/jar/Attributes;"); return super.getMainAttributes(); }
        public Map<String, java.util.jar.Attributes> getEntries() { new Hit("Archives$Lists getEntries()Ljava/util/Map;"); return super.getEntries(); }
        public void back() { new Hit("Archives$Lists back()V"); }
    }

    static InputStream in() { Data.at = 0; return new RecIn(); }
    static InputStream minIn() { Data.at = 0; return new MinIn(); }
    static OutputStream out() { return new RecOut(); }
    static OutputStream badOut() { return new BadOut(); }
    static File zip() { return new Named("a.zip"); }
    static File jar() { return new Named("a.jar"); }
    static File missing() { return new Named("no-such.zip"); }
    static ZipEntry entry() { return new RecEntry("a" + Data.at++); }
    static ZipEntry same() { return new RecEntry("a"); }
    static ZipEntry plain() { return new ZipEntry("b" + Data.at++); }
    static Manifest lists() { return new Lists(); }
    static ZipInputStream unpacks() { Data.at = 0; return new Unpacks(new RecIn()); }
    static JarInputStream unjars() throws IOException { Data.at = 0; return new Unjars(new RecIn()); }
    static JarInputStream jarIn() throws IOException { Data.at = 0; return new JarInputStream(new RecIn()); }
    static JarOutputStream jarOut() throws IOException { return new JarOutputStream(new RecOut(), new Lists()); }
    static ZipFile zipFile() throws IOException { return new ZipFile("a.zip"); }
    static JarFile jarFile() throws IOException { return new JarFile("a.jar"); }
    static Checksum sum() { return new RecSum(); }
    static Inflater inflater() { return new RecInflater(); }
    static Charset charset() { return StandardCharsets.UTF_8; }
    static Charset recorded() { return new RecCharset(); }

    static void moreFiles() throws Exception {
        JarFile all = new JarFile(new Named("a.jar"));
        Log.back(all.getManifest());
        for (Enumeration<JarEntry> each = all.entries(); each.hasMoreElements();) {
            InputStream in = all.getInputStream(each.nextElement());
            in.read();
            in.close();
        }
        all.getInputStream(new RecEntry("a")).read();
        all.close();
    }

    static void moreEntries() throws Exception {
        ZipInputStream all = new Unpacks(new RecIn());
        for (ZipEntry each = all.getNextEntry(); each != null; each = all.getNextEntry()) {
            Log.back(each);
            all.read();
            all.closeEntry();
        }
        all.close();
    }

    static void moreJars() throws Exception {
        JarOutputStream all = new JarOutputStream(new RecOut(), new Lists());
        all.putNextEntry(new RecEntry("x"));
        all.write(1);
        all.closeEntry();
        all.putNextEntry(new JarEntry(new RecEntry("y")));
        all.finish();
        all.close();
        new Lists().write(new RecOut());
        new Manifest(new RecIn());
        new Lists().equals(new Lists());
    }
}
