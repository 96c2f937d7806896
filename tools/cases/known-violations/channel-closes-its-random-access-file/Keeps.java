// Closing the channel of a RandomAccessFile closes the file (the call is the library's).
import java.io.*;
import java.nio.channels.FileChannel;

public final class Keeps {
    static String path() throws IOException {
        File made = File.createTempFile("known", ".tmp");
        made.deleteOnExit();
        return made.getPath();
    }

    public static void main(String[] args) throws IOException {
        RandomAccessFile file = new RandomAccessFile(path(), "rw");
        FileChannel channel = file.getChannel();
        System.out.println(channel.size());
        file.close();
    }
}
