;;; dil-mode.el --- Programs of piperench  -*- lexical-binding: t; -*-

;; Package-Requires: ((emacs "25.1"))
;; Keywords: languages

;;; Commentary:

;; Colours and indentation for DIL, the stream language of piperench, and findings of pipelens: `C-c C-c' calls
;; `pipelens why' for the program, and `next-error' goes from finding to finding.

;;; Code:

(require 'compile)
(require 'subr-x)

(defgroup dil nil
  "Programs of piperench."
  :group 'languages)

(defcustom dil-pipelens "pipelens"
  "The program that says where and why a program is refused."
  :type 'string)

(defcustom dil-options ""
  "Options for `dil-pipelens', such as \"--fabric wide\"."
  :type 'string)

(defcustom dil-indent-offset 4
  "How many columns a line in braces stands further in."
  :type 'integer
  :safe #'integerp)

(defvar dil-mode-syntax-table
  (let ((table (make-syntax-table)))
    (modify-syntax-entry ?/ ". 12" table)
    (modify-syntax-entry ?\n ">" table)
    (modify-syntax-entry ?_ "w" table)
    (modify-syntax-entry ?\" "." table)
    (dolist (operator '(?? ?+ ?* ?% ?& ?| ?^ ?~ ?< ?> ?= ?@ ?: ?- ?.))
      (modify-syntax-entry operator "." table))
    table)
  "What the characters of a program are.")

(defvar dil-font-lock-keywords
  `((,(regexp-opt '("input" "output" "const" "fn" "let" "rec" "return" "by" "for" "in") 'words) . font-lock-keyword-face)
    (,(regexp-opt '("cat" "signed") 'words) . font-lock-builtin-face)
    ("\\<\\(?:0x[[:xdigit:]]+\\|[0-9]+\\)\\>" . font-lock-constant-face)
    ("\\<[0-9]\\w*" . font-lock-warning-face)
    ("\\<\\([[:alpha:]_]\\w*\\)\\s-*(" 1 font-lock-function-name-face)
    ("\\<\\(?:input\\|output\\|const\\|let\\|rec\\)\\s-+\\([[:alpha:]_]\\w*\\)" 1 font-lock-variable-name-face))
  "The colours of a program.")

(defun dil-indent-line ()
  "Indent the line by the braces around it."
  (interactive)
  (let* ((closes (save-excursion (back-to-indentation) (looking-at-p "[])}]")))
         (depth (save-excursion (car (syntax-ppss (line-beginning-position)))))
         (column (* dil-indent-offset (max 0 (if closes (1- depth) depth)))))
    (if (<= (current-column) (current-indentation))
        (indent-line-to column)
      (save-excursion (indent-line-to column)))))

;; The first line of a finding, such as `filter.dil:2:16: scope: rule 2 item 1'.
(add-to-list 'compilation-error-regexp-alist-alist
             '(dil "^\\(.+?\\):\\([0-9]+\\):\\([0-9]+\\): \\(warning: \\)?" 1 2 3 (4)))

(define-compilation-mode dil-findings-mode "Findings"
  "What pipelens says of a program."
  (setq-local compilation-error-regexp-alist '(dil)))

(defun dil-command ()
  "The words that ask pipelens about the file of this buffer."
  (let ((file (shell-quote-argument (file-name-nondirectory buffer-file-name))))
    (string-trim-right (concat dil-pipelens " why " file " " dil-options))))

(defun dil-check ()
  "Save the program, and show what pipelens says of it."
  (interactive)
  (save-buffer)
  (compilation-start (dil-command) 'dil-findings-mode))

(defvar dil-mode-map
  (let ((map (make-sparse-keymap)))
    (define-key map (kbd "C-c C-c") #'dil-check)
    map)
  "The keys of `dil-mode'.")

;;;###autoload
(define-derived-mode dil-mode prog-mode "DIL"
  "A mode for programs of piperench."
  (setq-local comment-start "// ")
  (setq-local comment-end "")
  (setq-local comment-start-skip "//+\\s-*")
  (setq-local font-lock-defaults '(dil-font-lock-keywords))
  (setq-local indent-line-function #'dil-indent-line)
  ;; pipelens counts a tab as one column.
  (setq-local compilation-error-screen-columns nil)
  (when buffer-file-name
    (setq-local compile-command (dil-command))))

;;;###autoload
(add-to-list 'auto-mode-alist '("\\.dil\\'" . dil-mode))

;; Also for `compile', where a program of piperench is one of many files.
(add-to-list 'compilation-error-regexp-alist 'dil)

(provide 'dil-mode)
;;; dil-mode.el ends here
