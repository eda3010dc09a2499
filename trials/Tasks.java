// A program over Apache's commons-net that does a task of trials/tasks.py: HOST PORT USER PASSWORD FOLDER TASK.

import java.io.File;
import java.io.FileInputStream;
import java.io.FileOutputStream;
import java.io.IOException;
import java.io.InputStream;
import java.io.OutputStream;
import org.apache.commons.net.ftp.FTP;
import org.apache.commons.net.ftp.FTPClient;
import org.apache.commons.net.ftp.FTPFile;

public class Tasks {
    static final int PATIENCE = 30_000;
    static final FTPClient CLIENT = new FTPClient();

    public static void main(String[] words) throws IOException {
        CLIENT.setConnectTimeout(PATIENCE);
        CLIENT.setDefaultTimeout(PATIENCE);
        CLIENT.connect(words[0], Integer.parseInt(words[1]));
        boolean done = CLIENT.login(words[2], words[3]) && run(words[5], words[4]);
        System.out.println(CLIENT.getReplyString());
        CLIENT.logout();
        CLIENT.disconnect();
        System.exit(done ? 0 : 1);
    }

    static boolean run(String task, String own) throws IOException {
        CLIENT.enterLocalPassiveMode();
        CLIENT.setFileType(FTP.BINARY_FILE_TYPE);
        switch (task) {
            case "list": return show(CLIENT.listFiles());
            case "list of a directory": return show(CLIENT.mlistDir("many"));
            case "names": return show(CLIENT.listNames());
            case "get": return get("a.txt", new File(own, "got"));
            case "get of a big file": return get("big.bin", new File(own, "got"));
            case "get of nothing": return get("empty", new File(own, "got"));
            case "resumed get": return get("big.bin", new File(own, "halfbig.bin"));
            case "put": return put("s.txt", new File(own, "s.txt"), false);
            case "put of a big file": return put("big2.bin", new File(own, "big.bin"), false);
            case "append": return put("a.txt", new File(own, "s.txt"), true);
            case "way down and up": return CLIENT.changeWorkingDirectory("sub") && CLIENT.changeToParentDirectory() && show(CLIENT.listFiles());
            case "make a directory": return CLIENT.makeDirectory("new");
            case "remove a directory": return CLIENT.removeDirectory("hollow");
            case "delete": return CLIENT.deleteFile("a.txt");
            case "rename": return CLIENT.rename("a.txt", "b.txt");
            case "size": return show(CLIENT.getSize("big.bin"));
            case "where": return CLIENT.changeWorkingDirectory("sub/d2") && show(CLIENT.printWorkingDirectory());
            case "date": return show(CLIENT.getModificationTime("a.txt"));
            default: throw new IllegalArgumentException(task);
        }
    }

    static boolean show(Object... values) {
        for (Object value : values) {
            System.out.println(value instanceof FTPFile ? ((FTPFile) value).getName() : value);
        }
        return true;
    }

    // What the file has already is not fetched again.
    static boolean get(String name, File file) throws IOException {
        CLIENT.setRestartOffset(file.length());
        try (OutputStream to = new FileOutputStream(file, true)) {
            return CLIENT.retrieveFile(name, to);
        }
    }

    static boolean put(String name, File file, boolean atEnd) throws IOException {
        try (InputStream from = new FileInputStream(file)) {
            return atEnd ? CLIENT.appendFile(name, from) : CLIENT.storeFile(name, from);
        }
    }
}
