// The byte channel of a file is a GatheringByteChannel too.
import java.nio.ByteBuffer;
import java.nio.channels.*;
import java.nio.file.*;

public final class Breaks {
    public static void main(String[] args) throws Exception {
        SeekableByteChannel channel = Files.newByteChannel(Paths.get("/dev/null"), StandardOpenOption.WRITE);
        GatheringByteChannel gathering = (GatheringByteChannel) channel;
        gathering.close();
        gathering.write(ByteBuffer.allocate(1));  // errs here
    }
}
